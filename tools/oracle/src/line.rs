//! A line of the listing: a letter, then fields after one space each (document 01, "The program's listing").

pub struct Line(Vec<u8>);

impl Line {
    pub fn new(letter: char) -> Self {
        Line(vec![letter as u8])
    }

    pub fn hex(mut self, n: impl Into<u64>) -> Self {
        self.0.extend(format!(" {:x}", n.into()).bytes());
        self
    }

    pub fn text(mut self, s: &str) -> Self {
        self.0.extend(format!(" {:x}:{s}", s.len()).bytes());
        self
    }

    fn none(mut self) -> Self {
        self.0.extend(b" -");
        self
    }

    pub fn hex_or_none(self, n: Option<impl Into<u64>>) -> Self {
        match n {
            Some(n) => self.hex(n),
            None => self.none(),
        }
    }

    pub fn text_or_none(self, s: Option<&str>) -> Self {
        match s {
            Some(s) => self.text(s),
            None => self.none(),
        }
    }

    pub fn end(mut self) -> Vec<u8> {
        self.0.push(b'\n');
        self.0
    }
}
