#!/usr/bin/env python3
"""tracing.py [--check]: makes the tracing decoders of crate usage of the plain decoders of records and walks.

Each tracing decoder is the text of a plain one, its leaf calls replaced by those that note the bytes read (usage/src/leaf.rt):

    tables: &Tables                       &mut self; `tables` is then self.tables
    resolve_pointer, slot_or_0, pointer,  note_slot, note_slot_or_0, note_pointer, note_pointer_or_0, note_string, note_symbol
    pointer_or_0, string, symbol_at
    string_pair, then .first and .second  note_string of its first address, and or_empty of that of its second
    read_u64, row.word(K, A)              note_word of the address, then the same call
    u32_in, i32_in, u64_in                note_field of the place, then the same call
    row: &Near                            va: u64, and where the row's size is promised the test that so many bytes can be read
    Near::at                              readable
    row.first_slot(), row.field(K),       note_slot(va), note_pointer(va, K), note_pointer_or_0(va, K), note_slot_or_0(A)
    row.field_or_0(K), row.slot_or_0(K, A)
    row.u32(K), row.i32(K)                note_field of the row's place, then u32_in, i32_in there
    row.place()                           the row's place
    another decoder                       its tracing one

A value that is only made into a record is dropped: the record that is answered becomes (), a case of an enum around a decoder's value is left out, a
name that nothing uses any more goes, with its value where that is no test. A decoder whose record is wanted answers nothing at first, or one field
(FIELDS: `p.name` of a caller is then `p`), and ends with its last read; a second one calls it and then the plain decoder. A function that is neither
a leaf, a decoder nor one of SILENT, which use no byte, is refused.

The contract is that of the plain decoder: its definition D, found by the plain clause (`class_at t va` is `run t (decode_class va)`), noted.

Written are crates/usage/src/{class,class_name,category,protocol,protocol_name,list,row}.rt; --check writes nothing, and says with status 1 and
the difference where one of them is not what is made. Run it at the repository's top, and `rt fmt` changes nothing afterwards.
"""
import difflib
import re
import sys
from pathlib import Path

# What is answered: the value itself; nothing; or the record.
VALUE, NOTHING, RECORD = "value", "nothing", "record"

# Each file: what it holds, and the plain sources with their decoders.
FILES = {
    "class": ("Classes", [("records::class", ["class_at", "ro_lists_at", "class_ro_at", "ro_of"])]),
    "class_name": ("Names of classes", [("records::class", ["picked_at", "ro_data_at", "class_name_at", "decoded_name", "bound_name", "class_name_of"])]),
    "category": ("Categories", [("records::category", ["category_properties_at", "category_lists_at", "category_of", "category_at"])]),
    "protocol": ("Protocols", [("records::protocol", ["trailing_at", "class_properties_at", "protocol_lists_at", "protocol_at"])]),
    "protocol_name": ("Names of protocols", [("walks::protocol_names", ["protocol_name_at", "protocol_name_in", "name_in"])]),
    "list": ("Headers of lists", [("records::list", ["list_at"]), ("walks::protocol_names", ["protocol_list_at"])]),
    "row": ("Rows", [
        ("records::method", ["legacy_method_near", "selector_from", "small_texts_at", "small_method_near"]),
        ("records::ivar", ["offset_there", "offset_at", "ivar_near"]),
        ("records::property", ["property_near"]),
        ("records::row", ["row_near"]),
    ]),
}

# Those whose answer is not the value.
ANSWERS = {
    "class_at": RECORD, "class_ro_at": RECORD, "category_at": RECORD, "protocol_at": RECORD, "list_at": RECORD, "protocol_list_at": RECORD,
    "ro_lists_at": NOTHING, "category_lists_at": NOTHING, "category_of": NOTHING, "protocol_lists_at": NOTHING,
    "legacy_method_near": NOTHING, "small_method_near": NOTHING, "ivar_near": NOTHING, "property_near": NOTHING, "row_near": NOTHING,
    "offset_there": NOTHING, "offset_at": NOTHING, "small_texts_at": NOTHING,
}

# What puts a decoder's value into a case of the answer's enum, and is left out where the value is dropped.
CASES = {"method_row", "ivar_row", "property_row"}

# Calls that stand last in a decoder and are read as the text that they call, of the same names.
TAILS = {"layout_near"}

# The field that a record's first decoder answers instead of nothing: a caller that wants no more needs no second one.
FIELDS = {"protocol_at": "name"}

# What other files of usage call.
PUBLIC = {"class_at", "ro_of", "class_name_of", "category_at", "protocol_at", "name_in", "list_at", "protocol_list_at", "row_near"}

LEAVES = {
    "resolve_pointer": "note_slot", "slot_or_0": "note_slot_or_0", "pointer": "note_pointer", "pointer_or_0": "note_pointer_or_0",
    "string": "note_string", "symbol_at": "note_symbol",
}
FIELD_READS = {"u32_in": 4, "i32_in": 4, "u64_in": 8}
NEAR_NUMBERS = {"u32": "u32_in", "i32": "i32_in"}
NEAR_READS = {"first_slot": "note_slot", "field": "note_pointer", "field_or_0": "note_pointer_or_0"}
SIZES = {"method_size": "Method::SIZE", "small_method_size": "Method::SMALL_SIZE", "ivar_size": "Ivar::SIZE", "property_size": "Property::SIZE"}

# What makes an answer a case of a row: the answer is told as it is.
CASES = {"method_row", "ivar_row", "property_row"}

# What uses no byte: tests, what is made of an answer, and of numbers.
SILENT = {
    "readable", "checked_add", "nonzero", "even_list", "list_address", "entry_size", "rebase_at", "Address::pick", "data_at", "ImageInfo::parse",
    "tables.image", "tables.files", "tables.info", "tables.segments", "image_info.has_category_class_properties",
    "because", "optional", "or_zero", "or_empty", "relative_pointer", "bits_of", "capped", "least", "rows_of", "size_of", "legacy_imp", "small_imp",
    "small_kind", "alignment_of", "aligned_of", "Ok", "Err", "Some", "Missing::Absent", "Row::Method", "Row::Ivar", "Row::Property",
}
MORE_IMPORTS = {"or_empty": "reads::text", "readable": "reads::place", "u32_in": "reads::place", "i32_in": "reads::relative"}
NOTES = "crate::proofs::NotedBy::notes"


class Refused(Exception):
    pass


# --- Reading a plain source.

def source(module):
    crate, name = module.split("::")
    return Path(f"crates/{crate}/src/{name}.rt").read_text()


FUNCTION = re.compile(
    r"(?P<comment>(?:^// [^\n]*\n)*)(?P<attribute>^#\[tactic\([^\n]*\)\]\n)?(?:^#\[inline[^\n]*\]\n)?"
    r"^(?:pub(?:\(crate\))? )?fn (?P<name>\w+)\((?P<parameters>[^)]*)\) -> (?P<answer>[^\n]*)\n(?P<clauses>(?:^    [^\n]*\n)*)^\{\n(?P<body>.*?)^\}\n",
    re.MULTILINE | re.DOTALL)


def functions(module):
    found = {m["name"]: m.groupdict() for m in FUNCTION.finditer(source(module))}
    for function in found.values():
        function["body"] = re.sub(rf"^    ({'|'.join(TAILS)})\([^\n]*\)\n\Z", lambda m: found[m[1]]["body"], function["body"], flags=re.MULTILINE)
    return found


def imports(module):
    """Each name of a source with the module that has it."""
    crate = module.split("::")[0]
    text = source(module)
    found = {}
    for path, names in re.findall(r"^use ([\w:]+?)(?:::\{([^}]*)\})?;", text, re.MULTILINE):
        path = re.sub(r"^crate\b", crate, path)
        if names:
            found.update({n.strip(): path for n in names.split(",") if n.strip()})
        else:
            path, name = path.rsplit("::", 1)
            found[name] = path
    for name in re.findall(r"^pub (?:struct|enum|fn) (\w+)", text, re.MULTILINE):
        found[name] = module
    return found


def specs():
    """The definition of each `NAME t ..`, and where each definition stands: its module, and whether it is unfolded."""
    runs, places = {}, {}
    for crate in ("records", "walks"):
        for path in sorted(Path(f"crates/{crate}/specs").glob("*.antt")):
            text = path.read_text()
            for name, names, definition in re.findall(r"^(\w+) t ?(.*?) = run t (?:\((.*)\))$", text, re.MULTILINE):
                runs[name] = (names.split(), definition)
            for kind, name in re.findall(r"^(unfoldable|abbrev) pub (\w+) :", text, re.MULTILINE):
                places.setdefault(name, (f"{crate}::specs::{path.stem}", kind == "unfoldable"))
    return runs, places


RUNS, PLACES = specs()


def definition(function):
    """What the plain clause says that the answer is, as a definition."""
    clause = re.search(r"ensures \{(.*)\}", function["clauses"], re.DOTALL)[1]
    said = " ".join(clause.rsplit("≡", 1)[1].split())
    said = re.sub(r"\b\w+\.now\.tables\.now\b", "t", said)
    said = re.sub(r"\b\w+\.now\.va\b", "va", said)
    plain = re.fullmatch(r"run t \((.*)\)", said)
    if plain:
        return plain[1]
    head, t, *given = said.split()
    if t != "t" or head not in RUNS:
        raise Refused(f"{function['name']}: no definition of {said}")
    names, body = RUNS[head]
    if len(names) != len(given):
        raise Refused(f"{function['name']}: {head} has other arguments")
    by_name = dict(zip(names, given))
    return " ".join(by_name.get(word, word) for word in body.split())


# --- Statements: ("let", name, value), ("do", value), ("return", value), ("if", test, statements), ("end", value); a value is a text, or
# ("match", of, arms), or ("either", test, text, text).

OPEN, SHUT = "([{", ")]}"


def closing(text, at):
    """The end of what opens at a place."""
    depth = 0
    for i in range(at, len(text)):
        depth += text[i] in OPEN
        depth -= text[i] in SHUT
        if depth == 0:
            return i
    raise Refused("unbalanced: " + text)


def until(text, mark, at=0):
    """The first mark outside brackets from a place on, or the end."""
    while at < len(text):
        if text.startswith(mark, at):
            return at
        at = closing(text, at) + 1 if text[at] in OPEN else at + 1
    return len(text)


def split(text, mark=","):
    parts = []
    while text.strip():
        end = until(text, mark)
        parts.append(text[:end].strip())
        text = text[end + len(mark):]
    return parts


def value(text):
    text = text.strip()
    if text.startswith("match "):
        brace = text.index(" {") + 1
        arms = [tuple(part.strip() for part in arm.split("=>", 1)) for arm in split(text[brace + 1:closing(text, brace)])]
        return ("match", text[len("match "):brace].strip(), arms)
    if text.startswith("if "):
        brace = text.index(" {") + 1
        end = closing(text, brace)
        other = text.index("{", end)
        return ("either", text[3:brace].strip(), text[brace + 1:end].strip(), text[other + 1:closing(text, other)].strip())
    return text


def statements(text):
    text = " ".join(re.sub(r"^ *//.*", "", text, flags=re.MULTILINE).split())
    text = re.sub(r"([(\[]) ", r"\1", re.sub(r",? ([)\]])", r"\1", text))
    found = []
    while text:
        if text.startswith("if "):
            brace = text.index(" {") + 1
            end = closing(text, brace)
            found.append(("if", text[3:brace].strip(), statements(text[brace + 1:end])))
            text = text[end + 1:].strip()
            continue
        end = until(text, ";")
        one, text = text[:end], text[end + 1:].strip() if end < len(text) else None
        if text is None:
            found.append(("end", value(one)))
            break
        let = re.match(r"let (\w+) = (.*)", one)
        if let:
            found.append(("let", let[1], value(let[2])))
        elif one.startswith("return "):
            found.append(("return", value(one[len("return "):])))
        else:
            found.append(("do", value(one)))
    return found


# --- The rules.

def tracing_name(name):
    return "note_" + re.sub(r"_(at|near)$", "", name)


def first_name(name):
    """The one that answers no record."""
    return re.sub(r"_(at|near)$", "", name)


DECODERS = {name for _, sources in FILES.values() for _, names in sources for name in names}
CALL = re.compile(r"(?<![\w.])((?:\w+(?:\.|::))*\w+)\(")


class Rewrite:
    def __init__(self, function):
        self.name = function["name"]
        self.near = next((p.split(":")[0] for p in split(function["parameters"]) if p.endswith("&Near")), None)
        self.fields = {}
        self.pairs = {}

    def call(self, name, given, before):
        """A call with its arguments rewritten; what is noted in front of it goes to `before`. The second answer: whether the call itself notes."""
        if name in LEAVES:
            return f"self.{LEAVES[name]}({', '.join(given[1:])})", True
        if name == "read_u64":
            before.append(("note", f"self.note_word({given[1]})"))
            return f"read_u64({', '.join(given)})", False
        if name in FIELD_READS:
            before.append(("note", f"self.note_field({given[1]}, {given[2]}, {FIELD_READS[name]})"))
            return f"{name}({', '.join(given)})", False
        if name == "Near::at":
            return f"readable(self.tables.image(), {given[1]}, {given[2]})", False
        if self.near and name == f"{self.near}.slot_or_0":
            return f"self.note_slot_or_0({given[1]})", True
        if self.near and name == f"{self.near}.word":
            before.append(("note", f"self.note_word({given[1]})"))
            return f"read_u64(self.tables.image(), {given[1]})", False
        if self.near and name in [f"{self.near}.{n}" for n in NEAR_NUMBERS]:
            return self.call(NEAR_NUMBERS[name.split(".")[1]], ["self.tables.files()", "p", given[0]], before)
        if self.near and name == f"{self.near}.place":
            return "p", False
        if name in CASES:
            return given[0], False
        if self.near and name.startswith(self.near + "."):
            return f"self.{NEAR_READS[name.split('.')[1]]}({', '.join(['va'] + given)})", True
        if name in DECODERS:
            given = [re.sub(rf"^&?{self.near}$", "va", a) if self.near else a for a in given if a != "self.tables"]
            called = tracing_name(name) if name not in FIELDS else first_name(name)
            return f"self.{called}({', '.join(given)})", True
        if name not in SILENT:
            raise Refused(f"{self.name}: {name} is neither a leaf nor a decoder, nor known to use no byte")
        return f"{re.sub(r'^tables.', 'self.tables.', name)}({', '.join(given)})", False

    def text(self, text, before):
        """A text with its calls replaced, and whether it notes."""
        out, at, notes = "", 0, False
        while True:
            m = CALL.search(text, at)
            if not m:
                return out + self.plain(text[at:]), notes
            end = closing(text, m.end() - 1)
            given = []
            for argument in split(text[m.end():end]):
                told, noted = self.text(argument, before)
                notes = notes or noted
                given.append(told)
            told, noted = self.call(m[1], given, before)
            notes = notes or noted
            out += self.plain(text[at:m.start()]) + told
            at = end + 1

    def plain(self, text):
        text = re.sub(r"(?<![\w.])tables\b", "self.tables", text)
        for name, field in self.fields.items():
            text = re.sub(rf"\b{name}\.{field}\b", name, text)
        return text

    def unpaired(self, text):
        """A text of a pair, read by itself."""
        for name, (first, second) in self.pairs.items():
            text = re.sub(rf"\b{name}\.first\b", f"string(tables, {first})", text)
            text = re.sub(rf"\b{name}\.second\b", f"or_empty(string(tables, {second}))", text)
        return text

    def value(self, v, before):
        if isinstance(v, str):
            return self.text(self.unpaired(v), before)
        if v[0] == "either":
            parts = [self.text(x, before) for x in v[1:]]
            return ("either", *(told for told, _ in parts)), any(noted for _, noted in parts)
        of, notes = self.text(v[1], before)
        arms = []
        for pattern, answer in v[2]:
            mine = []
            told, noted = self.text(answer, mine)
            if mine:
                raise Refused(f"{self.name}: a read in an arm")
            arms.append((pattern, told))
            notes = notes or noted
        return ("match", of, arms), notes

    def block(self, block, answer):
        """Statements, each with whether it notes."""
        out = []
        for s in block:
            before = []
            if s[0] == "let":
                if self.near and re.fullmatch(rf"{self.near}\.(tables|va|place)\(\)", str(s[2])):
                    continue
                pair = re.fullmatch(r"string_pair\(tables, (\w+), (\w+)\)", str(s[2]))
                if pair:
                    self.pairs[s[1]] = pair.groups()
                    continue
                if re.match(r"Near::at\(", str(s[2])):
                    self.near, name = s[1], "p"
                else:
                    name = s[1]
                decoder = re.match(r"(\w+)\(.*\)\?$", str(s[2]))
                if decoder and decoder[1] in FIELDS:
                    self.fields[name] = FIELDS[decoder[1]]
                told, notes = self.value(s[2], before)
                out += [(b, True) for b in before] + [(("let", name, told), notes)]
            elif s[0] == "if":
                test, notes = self.text(s[1], before)
                inner = self.block(s[2], answer)
                out += [(b, True) for b in before] + [(("if", test, [x for x, _ in inner]), notes or any(n for _, n in inner))]
            elif s[0] == "do":
                told, notes = self.value(s[1], before)
                out += [(b, True) for b in before] + [(("do", told), notes)]
            else:
                out += self.answered(s[0], s[1], answer)
        return out

    def answered(self, kind, v, answer):
        """The end of a block, by what the function answers."""
        before = []
        if answer == VALUE:
            told, notes = self.value(v, before)
            return [(b, True) for b in before] + [((kind, told), notes)]
        if isinstance(v, str) and v.startswith("Ok("):
            told, notes = self.text(v[3:-1], before)
            field = FIELDS.get(self.name)
            kept = [(("do", told), True)] if notes else []
            return [(b, True) for b in before] + kept + [((kind, f"Ok({field or '()'})"), False)]
        if not isinstance(v, str) and v[0] == "match":
            # A case of the answer's enum around a decoder's value, which is dropped: the decoder's own answer.
            v = ("match", v[1], [(pattern, re.sub(rf"^({'|'.join(CASES)})\((.*)\)$", r"\2", told)) for pattern, told in v[2]])
        told, notes = self.value(v, before)
        return [(b, True) for b in before] + [((kind, told), notes)]


def words(s):
    """The words of a statement's texts."""
    if isinstance(s, str):
        return set(re.findall(r"(?<![\w.:])\w+", s))
    return set().union(*(words(x) for x in s)) if s else set()


def unused(block):
    """Without the names that nothing uses, and what they name where that is no test and notes nothing."""
    used, out = set(), []
    for s, notes in reversed(block):
        if s[0] == "let" and s[1] not in used:
            if not (isinstance(s[2], str) and s[2].endswith("?")):
                if notes:
                    raise Refused(f"{s[1]} notes, and is not used")
                continue
            s = ("do", s[2])
        used |= words(s[1:] if s[0] != "let" else s[2:])
        out.append((s, notes))
    return out[::-1]


def shown(block, indent):
    space = "    " * indent
    out = []
    for s in block:
        if s[0] == "let":
            out += shown_value(f"{space}let {s[1]} = ", s[2], ";", indent)
        elif s[0] in ("do", "note"):
            out += shown_value(space, s[1], ";", indent)
        elif s[0] == "return":
            out += shown_value(space + "return ", s[1], ";", indent)
        elif s[0] == "if":
            out += [f"{space}if {s[1]} {{"] + shown(s[2], indent + 1) + [space + "}"]
        else:
            out += shown_value(space, s[1], "", indent)
    return out


def shown_value(start, v, end, indent):
    space = "    " * indent
    if isinstance(v, str):
        return [start + v + end]
    if v[0] == "match":
        return [f"{start}match {v[1]} {{"] + [f"{space}    {pattern} => {told}," for pattern, told in v[2]] + [space + "}" + end]
    return [f"{start}if {v[1]} {{", f"{space}    {v[2]}", space + "} else {", f"{space}    {v[3]}", space + "}" + end]


def header(visible, name, parameters, answer):
    """The first line of a function, or lines, as `rt fmt` breaks them."""
    line = f"    {visible}fn {name}({', '.join(parameters)}) -> {answer}"
    if len(line) <= 100:
        return [line]
    return [f"    {visible}fn {name}("] + [f"        {p}," for p in parameters] + [f"    ) -> {answer}"]


def traced(function, module, heads):
    """A tracing decoder, and where it answers no record the one that does."""
    name = function["name"]
    answer = ANSWERS.get(name, VALUE)
    rewrite = Rewrite(function)
    said = definition(function)
    heads.add(said.split()[0])

    block = rewrite.block(statements(function["body"]), NOTHING if answer == RECORD else answer)
    size = re.search(r"OfSize \w+\.now (\w+) \}", function["clauses"])
    if size:
        block.insert(0, (("let", "p", f"readable(self.tables.image(), va, {SIZES[size[1]]})?"), False))
    field = FIELDS.get(name)
    if answer == RECORD and not field:
        last = max(i for i, (_, notes) in enumerate(block) if notes)
        if block[last][0][0] != "end":
            block = block[:last + 1] + [(("end", "Ok(())"), False)]
    block = [s for s, _ in unused(block)]

    parameters = [p if not p.endswith("&Near") else "va: u64" for p in split(function["parameters"]) if p != "tables: &Tables"]
    given = ", ".join(p.split(":")[0] for p in parameters)
    parameters = ["&mut self"] + parameters
    result = function["answer"] if answer == VALUE else "Result<Text, Missing>" if field else "Result<(), Missing>"
    noted = "traced (outcome result) self.new ≡ trace ({}) self.old"
    if answer == NOTHING:
        clause = noted.format(f"reads ({said})")
        heads.add("reads")
    elif field:
        clause = noted.format(f"then ({said}) (λ p. done p.{field})")
        heads.update(("then", "done"))
    elif answer == RECORD:
        clause = f"self.new ≡ noting ({said}) self.old"
        heads.add("noting")
    else:
        clause = noted.format(said)
    if "outcome result" in clause or answer == RECORD:
        heads.update(("traced", "trace"))

    attribute = function["attribute"] or ""
    lemmas = [l for l in re.findall(r"[\w:]+", (re.search(r"using\((.*?)\)", attribute) or ["", ""])[1]) if l.startswith("std::")]
    unfolded = []
    place, unfolds = PLACES[said.split()[0]]
    if unfolds:
        unfolded.append(f"{place}::{said.split()[0]}")
    crate = module.split("::")[0]
    for path in re.findall(r"[\w:]+", (re.search(r"unfolding\((.*?)\)", attribute) or ["", ""])[1]):
        path = re.sub(r"^crate\b", crate, path)
        if path not in unfolded:
            unfolded.append(path)
    choose = "reads::specs::Outcome::choose"
    if any(s[0] == "if" or "either" in str(s) for s in block) and choose not in unfolded:
        unfolded.append(choose)

    visible = "pub " if name in PUBLIC else ""
    own = first_name(name) if answer == RECORD else tracing_name(name)
    own_visible = ("pub(crate) " if field else "") if answer == RECORD else visible
    out = ["    " + line for line in function["comment"].splitlines()]
    out += [
        f"    #[tactic(auto, using({', '.join([NOTES] + lemmas)})" + (f", unfolding({', '.join(unfolded)})" if unfolded else "") + ")]",
        *header(own_visible, own, parameters, result),
        f"        ensures {{ {clause} }}",
        "    {",
        *shown(block, 2),
        "    }",
    ]
    if answer == RECORD:
        out += [
            "",
            "    // The same, and the record, which the plain decoder makes. Two functions, so that `?` ends the reads and not the answer.",
            f"    #[tactic(auto, using({NOTES}))]",
            *header(visible, tracing_name(name), parameters, function["answer"]),
            f"        ensures {{ {noted.format(said)} }}",
            "    {",
            f"        let _ = self.{own}({given});",
            f"        {name}(self.tables, {given})",
            "    }",
        ]
    return out


def made(file):
    title, sources = FILES[file]
    heads, known, bodies = {"outcome"}, dict(MORE_IMPORTS), []
    for module, names in sources:
        known.update(imports(module))
        plain = functions(module)
        for name in names:
            if name not in plain:
                raise Refused(f"{module} has no {name}")
            bodies.append("\n".join(traced(plain[name], module, heads)))
    body = "\n\n".join(bodies)
    paths = " and ".join("crates/{}/src/{}.rt".format(*module.split("::")) for module, _ in sources)
    if len(sources) > 2:
        paths = "crates/records/src/{" + ",".join(module.split("::")[1] for module, _ in sources) + "}.rt"

    ghosts = {"Rattle.std.specs.Prelude": ["◌≡◌"], "Rattle.reads.specs.Answer": ["outcome"]}
    for head in sorted(heads - {"outcome", "reads", "noting", "traced", "trace"}):
        ghosts.setdefault("Rattle." + PLACES[head][0].replace("::", "."), []).append(head)
    ghosts["Rattle.usage.specs.Noting"] = [h for h in ("noting", "traced", "trace") if h in heads]
    if "reads" in heads:
        ghosts["Rattle.usage.specs.Pass"] = ["reads"]
    if "outcome result" not in body:
        del ghosts["Rattle.reads.specs.Answer"]

    code = re.sub(r"//.*|ensures \{.*\}|#\[.*\]", "", body)
    uses = {"crate::noting": ["Noting"]}
    for name in sorted(words(code)):
        if name in known:
            uses.setdefault(known[name], []).append(name)
    lines = [f"// {title}, noted on a sheet. Made by tools/usage/tracing.py of {paths}."]
    lines += [f"ghost use {path}.{{{', '.join(names)}}};" for path, names in ghosts.items()]
    lines += [""]
    for path, names in sorted(uses.items()):
        lines.append(f"use {path}::{names[0]};" if len(names) == 1 else f"use {path}::{{{', '.join(names)}}};")
    return "\n".join(lines) + "\n\nimpl Noting<'_> {\n" + body + "\n}\n"


def main():
    check = sys.argv[1:] == ["--check"]
    if sys.argv[1:] and not check:
        sys.exit(__doc__)
    differ = 0
    for file in FILES:
        path = Path(f"crates/usage/src/{file}.rt")
        try:
            text = made(file)
        except Refused as why:
            sys.exit(f"tracing.py: {file}: {why}")
        if not check:
            path.write_text(text)
            continue
        stands = path.read_text()
        if stands != text:
            differ += 1
            sys.stdout.writelines(difflib.unified_diff(stands.splitlines(True), text.splitlines(True), str(path), "tracing.py"))
    if check:
        print(f"{len(FILES) - differ} agree, {differ} differ")
    sys.exit(1 if differ else 0)


if __name__ == "__main__":
    main()
