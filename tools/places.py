#!/usr/bin/env python3
"""Counts the places of the design pass in crates/*/src.

Each point has patterns; a place is a line of code that one of them finds. With -v the places are printed.
    python3 tools/places.py [-v] [TOP]
"""
import pathlib
import re
import sys

POINTS = [
    ("1 numbers and flags in place of Option, Result and enums", [
        ("a function that answers the number 0 and means nothing by it", r"^pub fn \w+\(\) -> u8$"),
        ("a number 0 that stands for success", r"-> \(u8, usize\)|^// .*\b(or 0\b|; 0 and)"),
        ("a number for a kind of task or of count", r"^const (RESTRICTION|PRIMES|ONE|MANY)\b"),
        ("an enum of one case", r"^pub enum (TallyFault|ListFault|PairFault) "),
        ("an error as the sign of a constant's handle", r"Err\(_\)( if h == 1)? => (25|\(h, h\)|true|set == 1|W::|if h == 1)|^\s+_ => \(h, h\)"),
        ("an answer left in a lent place", r"answer: &mut W::Weight"),
        ("the number or the place of a refusal", r"pub fn (number\(self\) -> u8|place\(self\) -> usize)"),
    ]),
    ("2 twins", [
        ("a function that another crate or file has too", r"fn (put_byte|handle_at|handle_of|place_of|has_room|parsed|answer_of|apply\(op|refused_below\w*|is_named|is_wanted|word_at|value_at|letter)\b"),
        ("a table's fault, put together by hand", r"TableFault \{$"),
        ("a constant that another file has too", r"^(pub )?const (MOST|BLANK|MAX_LENGTH)\b"),
        ("a type that another one repeats", r"^pub enum (Op|Operator|TallyFault|ListFault) "),
        ("a call that differs from four others in its operator", r"pub fn (and|or|xor|implies|iff)\(&mut self"),
    ]),
    ("3 loops that count by hand", [
        ("for over the indices of a buffer", r"for (i|h|_i) in [\w(]"),
        ("while", r"\bwhile\b"),
        ("enumerate for a position", r"\.enumerate\(\)"),
        ("a count by hand", r"^\s+n \+= 1;"),
    ]),
    ("4 comparison, conversion and printing by hand", [
        ("a function that only compares", r"fn (same_node|same_task|same_bytes|is_word|is_short|is_one|too_deep|too_long|has_room)\b"),
        ("a conversion", r"fn (classify|op_of|constant|moved|told|handle_at|handle_of|at16|put16|word_of|parsed|yes_no)\b"),
        ("printing, on an output and a place in it", r"fn put_\w+\(out: "),
    ]),
    ("5 facts and parameters that travel together", [
        ("requires sound", r"requires sound\b"),
        ("ensures sound", r"ensures sound\b"),
        ("requires right", r"requires right\b"),
        ("ensures right", r"ensures right\b"),
        ("ensures size and rest", r"ensures (size|rest) \{.*(limit|rest) .*(new|old)"),
        ("ensures memory", r"ensures memory\b"),
        ("a call of len for what it proves", r"let _ = (self|graph)\.len\(\);"),
        ("a table and its cache, as two parameters", r"^\s+cache: &mut C,|cache: &mut C[,)]"),
        ("a handle that is asked to be issued, beside its table", r"requires (\w+ )?\{ Issued \(T\.nodes table\.now\)"),
        ("what is read, the place and the depth, as parameters of the reader", r"^\s+depth: usize,$|^\s+text: &\[u8\],$|text: &\[u8\], at: usize"),
        ("the nodes held before, told to the end of a call", r"let held = (self|graph)\.len\(\);"),
        ("a tally's four operations, put together", r"model W\.nothing"),
        ("an output and a place in it, as two parameters", r"out: &mut \[u8\], at: usize"),
        ("counts and an output lent beside a receiver", r"counts: &mut \[u8\],( _?out: &mut \[u8\],)?$|counts: &mut \[u8\], _?out"),
    ]),
    ("6 buffers with a length beside", [
        ("an array in a struct or a local, filled by hand", r"(: \[[^;\]]+; (12|4096)\],?$|= \[[^;\]]+; 4096\];|\[[^;\]]+; 4096\],$|&(mut )?\[\w+; 4096\])"),
        ("the length beside it", r"(let mut height|height: usize|pub len: usize|pub\(crate\) len: usize|^\s+len: usize,|options: usize,$|^\s+held: usize,)"),
    ]),
    ("7 a switch on what to run", [
        ("a trait of one method that only receives", r"^pub trait Receiver"),
        ("an implementation of it", r"^impl.* Receiver for"),
        ("a function pointer or a dyn", r"\bdyn \w|: fn\("),
    ]),
]


def places(top, pattern):
    found = []
    for path in sorted(pathlib.Path(top).glob("crates/*/src/*.rt")):
        for number, line in enumerate(path.read_text().splitlines(), 1):
            if re.search(pattern, line):
                found.append(f"{path.relative_to(top)}:{number}: {line.strip()[:110]}")
    return found


def main():
    arguments = [a for a in sys.argv[1:] if a != "-v"]
    top = arguments[0] if arguments else "."
    for name, patterns in POINTS:
        all_found = [(what, places(top, pattern)) for what, pattern in patterns]
        print(f"{name}: {sum(len(f) for _, f in all_found)}")
        for what, found in all_found:
            print(f"    {len(found):3} {what}")
            if "-v" in sys.argv:
                for place in found:
                    print(f"          {place}")
    for what, pattern in [("lines of proofs by function", "crates/*/proofs/**/*.antt"), ("answers and invariants", "crates/*/proofs/*/**/*.antt")]:
        files = list(pathlib.Path(top).glob(pattern))
        print(f"8 {what}: {len(files)} files, {sum(len(f.read_text().splitlines()) for f in files)} lines")


main()
