//! The marks of m rows, computed apart: the Rust has none. Source: document 02, note 11.

/// The ends of a range of frames and of a range of slides, and the starts of all m rows.
pub struct Marks {
    ends: [i128; 4],
    starts: Vec<i128>,
}

impl Marks {
    pub fn new(ends: [u64; 4], starts: &[u64]) -> Self {
        let mut starts: Vec<i128> = starts.iter().map(|&s| s.into()).collect();
        starts.sort_unstable();
        starts.dedup();
        Marks { ends: ends.map(i128::from), starts }
    }

    /// The addresses that a method holds: from its start to just before the next start, if there is one.
    fn held(&self, start: i128) -> (i128, i128) {
        let next = self.starts.partition_point(|&other| other <= start);
        (start, self.starts.get(next).map_or(i128::MAX, |other| other - 1))
    }

    /// Marked where that meets the possible addresses, certain where it holds them all.
    pub fn mark(&self, start: u64) -> u64 {
        let [f0, f1, s0, s1] = self.ends;
        let (low, high) = ((f0 - s1).max(0), f1 - s0);
        let (from, to) = self.held(start.into());
        match () {
            () if high < low || to < low || high < from => 0,
            () if from <= low && high <= to => 2,
            () => 1,
        }
    }

    /// The same by every pair of a frame and a slide; none where there are too many.
    pub fn by_pairs(&self, start: u64) -> Option<u64> {
        let [f0, f1, s0, s1] = self.ends;
        if (f1 - f0 + 1).checked_mul(s1 - s0 + 1)? > 4096 {
            return None;
        }
        let start = i128::from(start);
        let (mut held, mut pairs) = (0, 0);
        for address in (f0..=f1).flat_map(|f| (s0..=s1).map(move |s| f - s)).filter(|&a| a >= 0) {
            pairs += 1;
            if start <= address && !self.starts.iter().any(|&other| start < other && other <= address) {
                held += 1;
            }
        }
        Some(if held == 0 { 0 } else if held < pairs { 1 } else { 2 })
    }
}
