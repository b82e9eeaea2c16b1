#!/usr/bin/env python3
"""Lists the places in src/ that the points of docs/DESIGN-PASS.md ask about, and counts them.

    python3 tools/count_places.py [FOLDER]     one line for each place, then the counts
    python3 tools/count_places.py -q [FOLDER]  the counts alone
"""
import collections
import pathlib
import re
import sys

COMMENT = re.compile(r"^\s*//")


def sources(top):
    for path in sorted(top.glob("crates/*/src/**/*.rt")):
        yield path, path.read_text()


def code_lines(text):
    for number, line in enumerate(text.splitlines(), 1):
        if not COMMENT.match(line) and "ghost use" not in line:
            yield number, line


def functions(text):
    """Name, line, parameters and result of each function that has a body."""
    form = re.compile(r"fn (\w+)(?:<[^(]*>)?\(([^)]*)\)(?:\s*->\s*([^\n{]+))?", re.S)
    for found in form.finditer(text):
        parts = re.split(r",(?![^<(\[]*[>)\]])", found[2])
        parameters = tuple(" ".join(p.split()) for p in parts if p.strip())
        yield found[1], text.count("\n", 0, found.start()) + 1, parameters, (found[3] or "()").strip()


def clauses(text):
    for found in re.finditer(r"(?:requires|ensures)(?: \w+)? \{ (.*) \}", text):
        yield text.count("\n", 0, found.start()) + 1, found[1]


def type_of(parameter):
    return parameter.split(":", 1)[1].strip() if ":" in parameter else parameter


def by_pattern(top, point, patterns, places):
    for path, text in sources(top):
        for number, line in code_lines(text):
            for what, pattern in patterns:
                if re.search(pattern, line):
                    places[point].append((path, number, f"{what}: {line.strip()}"))
                    break


def twins(top, places):
    for crate in sorted(top.glob("crates/*/src")):
        shapes = collections.defaultdict(list)
        for path in sorted(crate.glob("**/*.rt")):
            text = path.read_text()
            for name, line, parameters, result in functions(text):
                if parameters:
                    shapes[tuple(sorted(map(type_of, parameters))), result].append((path, line, name))
            for found in re.finditer(r"struct (\w+)[^;{]*\{([^}]*)\}", text):
                fields = tuple(sorted(re.findall(r":\s*([^,\n]+),", re.sub(r"ghost.*", "", found[2]))))
                shapes["struct", fields].append((path, text.count("\n", 0, found.start()) + 1, found[1]))
        for (shape, result), group in shapes.items():
            if len(group) > 1:
                for path, line, name in group:
                    places[2].append((path, line, f"same shape as {len(group) - 1} more: {name}"))


def repeated(top, places):
    for crate in sorted(top.glob("crates/*/src")):
        facts = collections.defaultdict(list)
        groups = collections.defaultdict(set)
        for path in sorted(crate.glob("**/*.rt")):
            text = path.read_text()
            for line, clause in clauses(text):
                shape = re.sub(r"\bresult\b", "_", clause)
                facts[shape].append((path, line, clause))
            for name, line, parameters, _ in functions(text):
                named = sorted(p for p in parameters if ":" in p)
                for i, first in enumerate(named):
                    for second in named[i + 1:]:
                        groups[first, second].add((path, line, name))
        for found in facts.values():
            if len(found) > 2:
                places[5] += [(path, line, f"the same clause {len(found)} times: {clause[:70]}") for path, line, clause in found]
        for pair, found in groups.items():
            if len(found) > 2:
                places[5] += [(path, line, f"together {len(found)} times: {', '.join(pair)} ({name})") for path, line, name in sorted(found)]


def bare_types(top, places):
    for path, text in sources(top):
        for found in re.finditer(r"((?:#\[[^\n]*\]\n)*)(?:pub )?(?:struct|enum) (\w+)", text):
            if "PartialEq" not in found[1]:
                places[4].append((path, text.count("\n", 0, found.start()) + 1, f"no derived equality: {found[2]}"))


PATTERNS = {
    1: [
        ("own enum", r"^(pub )?enum \w+"),
        ("flag as a parameter or field", r"\b\w+: bool\b(?!.*->)"),
        ("number for a case", r"^\s*\d+ =>|% 3 \{|\bNO_\w+: u8"),
        ("0 for nothing", r"=> 0,|\{ 0 \}|return 0;|\bline: 0\b|\bline: u16,$"),
    ],
    3: [
        ("loop", r"^\s*(for|while|loop)\b"),
    ],
    4: [
        ("conversion by `as`", r"\bas (u\d+|usize|Mask)\b"),
        ("conversion or comparison by hand", r"fn (from_bits|bits|is_word|is_text|same_field|name|number|line_at|lined)\b"),
        ("text by hand", r"format!"),
        ("part of an option or a result by hand", r"^\s*(None|Err\(\w*\)|Some\(\w+\)|Ok\(\w+\)) => (None|self|false|Ok\(\w+\)|\w+ == \w+)[,;]?"),
    ],
    6: [
        ("table", r"\[[^\]\[]*; \w+\](?!\()"),
        ("length beside", r"\blen: usize"),
        ("list beside", r"^\s*(pub )?\w+: Vec<"),
    ],
    7: [
        ("switch on a number", r"match \w+ % \d"),
        ("chain of tests on a word", r"if is_text\("),
        ("function as a value", r"\bdyn\b|: fn\("),
    ],
}


def main():
    arguments = [a for a in sys.argv[1:] if a != "-q"]
    top = pathlib.Path(arguments[0] if arguments else pathlib.Path(__file__).resolve().parents[1])
    places = collections.defaultdict(list)
    for point, patterns in PATTERNS.items():
        by_pattern(top, point, patterns, places)
    twins(top, places)
    bare_types(top, places)
    repeated(top, places)
    for path in sorted(top.glob("crates/*/proofs/**/*.antt")):
        places[8].append((path, 1, f"{len(path.read_text().splitlines())} lines"))
    for point in sorted(places):
        found = sorted(set(places[point]))
        if "-q" not in sys.argv:
            for path, line, what in found:
                print(f"{point}  {path.relative_to(top)}:{line}  {what}")
        by_crate = collections.Counter(path.relative_to(top).parts[1] for path, _, _ in found)
        print(f"point {point}: {len(found)}  " + ", ".join(f"{crate} {n}" for crate, n in sorted(by_crate.items())))


if __name__ == "__main__":
    main()
