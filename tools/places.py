#!/usr/bin/env python3
"""Counts the places in src/ that the design pass looks at: python3 tools/places.py COMMIT [POINT] [-l]

Each point has a few patterns, one for each old form; a piece of code that fits one is a place. Comments are not looked at, and contracts only where a
point is about them. A place counts as kept if a line that begins `// Kept:` stands in its function or type, or above the impl that it is in.
-l lists the places."""
import re
import subprocess
import sys

POINTS = {
    1: [
        (r"let (Some|Ok)\(.*\) = .* else \{\n\s*return (Err\(|None)", "an early return that is a `?`"),
        (r"let (Some|Ok)\(.*\) = .* else \{\n\s*return (true|false);", "an early answer by hand"),
        (r"^\s*None => (true|false|0|None|\(0, 0\)|\w+\(0\)),?$|Err\(_\) => (None|false)", "a default by hand"),
        (r"\bkind: u8\b(?!:)|\bkind (>|==) 2\b", "a number for a kind"),
        (r"fn (number|rank|number_of)\(.*\) -> u(8|16)\n.*\n\s*\{\n\s*(match|15)", "a number for a refusal or an order"),
        (r'return "";|let mut last = 0;', "a value that stands for nothing"),
        (r"pub enum End\b", "an own enum of Result's shape"),
        (r"match (\w+\.)?first_failing\(", "a match that is a method"),
    ],
    2: [
        (r"fn (put_)?(byte|u16|u64)(_if)?[<(]", "one for each width of a number"),
        (r"if let Some\(mut x\) = slot|let changed = slot\(", "one for each field that is set"),
        (r"fn (users|subjects|objects)_end\b", "one for each table"),
        (r"for \w+ in .* \{\n\s*if .* \{\n\s*return (true|false);", "one loop for each question of all entries"),
        (r"fn is_(container|program)\(", "one for each kind"),
        (r"fn (kind_from|table_kind|kind_number)\b|Some\(\w+\) => held_above\(", "the same thing in two crates"),
        (r"fn contains\(self, \w+: \w+\)", "one for each width of a set"),
        (r"fn read_roll\(", "the same thing in five programs"),
        (r"\} = t\.|if let Some\(\w+\) = t\.(user|group)\(number\)", "one for each table"),
        (r"fn (house|old)_(guard|transcript)\(|fn (secrecy|trust)_label\(", "one for each label"),
        (r"Container if !\w+\.has_right\(s\.user, o, Right::WriteAttributes\) =>", "one for each mark"),
        (r"has_right\(s\.user, o, Right::.*\n(\s*return Err.*\n\s*\}\n|\s*Err.*\n\s*\}\n)?.*\bflows\(s\.label, o\.label\)", "the right, then the flow"),
        (r'let \(a, b\) = \(p\.|"(bad|roll) \{number\} \{place\}', "the same print"),
        (r"Question::(Label|Flows|Holds)\(SchemeName::(House|Old),", "one for each label"),
    ],
    3: [
        (r"\bfor \w+ in .*\.\.", "a loop over numbers"),
        (r"\bwhile\b", "a loop that counts or cuts by hand"),
        (r"fn next_call\(", "an iterator's shape"),
        (r"for \(\w+, \w+\) in .*enumerate\(\) \{\n\s*if .*\{\n\s*return", "a search by hand"),
    ],
    4: [
        (r"fn (of\(n: u64\)|word\(&self\)|reason\(&self\)|number_of\()|fn number\(&self\) -> u(8|64)\n.*\n\s*\{\n\s*(match|15|let)", "a conversion by hand"),
        (r"fn bit\(self\) -> u8\n.*\n\s*\{\n\s*match", "a conversion by hand"),
        (r"fn (kind_from|table_kind|kind_number|table_user|table_role|table_object)\(", "a conversion by hand"),
        (r"fn rank\(", "an order by hand"),
        (r"fn (kind_word|right_word|record_word|fault_word|clause_letter|clause_text)\(", "printing by hand"),
        (r"fn read_(scheme|ask|parts|part|two)\(", "a conversion from text by hand"),
        (r"matches!\(", "an equality by hand"),
        (r"impl fmt::Display for (Label|Refusal)\b", "a type that is there to be printed"),
    ],
    5: [
        (r"scheme: &S, t: &Tables|^\s*scheme: &S,$", "a scheme and its tables, side by side"),
        (r"ensures scheme \{ (self|guard)\.new\.scheme", "the scheme stays"),
        (r"ensures (kept|steady) \{", "blank or sound"),
        (r"\(S\.Scheme\.meaning ([a-z.]+\.)?scheme\.now\) (t|[a-z.]+\.tables)\.now", "a scheme and its tables, in a contract"),
        (r"Took .* × \(length", "what was read, and how long it is, side by side"),
        (r"bits: u8, number: u8", "a record's map and number, side by side"),
        (r"fn \w+<S: Sink.*>\(out: &mut S|fn \w+<S: Sink.*>\($", "a sink and what it took"),
    ],
    6: [
        (r"^\s*(pub )?bytes: &'a (mut )?\[u8\],$", "a buffer with a place beside it"),
        (r"^\s*pub answered: usize,$", "a length beside its buffer"),
        (r"^\s*pub (users|groups|subjects|objects): \[Option<", "a table of slots by number"),
        (r"^\s*pub parent: u8,$", "a tree by numbers"),
    ],
    7: [
        (r"match (call|number|ask|question|question\.scheme\(\)|head\[1\]|kind|scheme|clause) \{(?!\n\s*(Kind|0)\b)(?!\n.*\")", "a switch"),
        (r"^\s*return Some\(Clause::", "a row of tests"),
        (r"^\s*name\(&mut out, set, Right::", "a row of calls"),
    ],
}
ITEM = re.compile(r"\s*(pub(\(crate\))? )?(fn|struct|enum|trait|const|type|impl)\b")


def git(*args):
    return subprocess.run(["git", *args], capture_output=True, text=True, check=True).stdout


def blanked(line, point):
    """The line as the patterns see it."""
    code = line.strip()
    hidden = code.startswith(("//", "#", "ghost")) or (point != 5 and code.startswith(("ensures", "requires")))
    return "//" if hidden else line


def above(lines, at):
    """The comments and attributes right above a line."""
    while at > 0 and lines[at - 1].strip().startswith(("//", "#[")):
        at -= 1
        yield lines[at]


def kept(lines, at):
    """Does a line `// Kept:` stand in the item around the line, or above the impl around it?"""
    said = []
    indent = len(lines[at]) - len(lines[at].lstrip())
    first = at
    while first >= 0 and not (ITEM.match(lines[first]) and (first == at or len(lines[first]) - len(lines[first].lstrip()) < indent)):
        first -= 1
    said += lines[first : at + 1] + list(above(lines, first))
    outer = first
    while outer > 0 and not lines[outer].startswith(("impl", "pub trait", "trait")) and lines[first].startswith(" "):
        outer -= 1
    said += list(above(lines, outer))
    return any(l.strip().startswith("// Kept:") for l in said)


def places(commit, point):
    """The places of a point: file, line number, text, form, kept or not."""
    for path in git("ls-tree", "-r", "--name-only", commit, "crates").split():
        if "/src/" not in path or not path.endswith(".rt"):
            continue
        lines = git("show", f"{commit}:{path}").split("\n")
        text = "\n".join(blanked(l, point) for l in lines)
        seen = set()
        for pattern, form in POINTS[point]:
            for m in re.finditer(pattern, text, re.M):
                at = text.count("\n", 0, m.start())
                if text[m.start()] == "\n":
                    at += 1
                if at not in seen:
                    seen.add(at)
                    yield path, at + 1, lines[at].strip(), form, kept(lines, at)


def main():
    commit = sys.argv[1]
    wanted = [int(a) for a in sys.argv[2:] if a.isdigit()] or sorted(POINTS)
    for point in wanted:
        found = sorted(places(commit, point))
        print(f"point {point}: {len(found)} places, {sum(p[4] for p in found)} of them marked as kept")
        if "-l" in sys.argv:
            for path, at, code, form, stays in found:
                print(f"  {path}:{at}: {form}{' (kept)' if stays else ''}: {code}")


main()
