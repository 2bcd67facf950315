#!/usr/bin/env python3
"""forms.py [POINT..]: the places of src/ that stand in a form of the older Rattle, by the points of docs/DESIGN-PASS.md.

Prints the count of each point and, where points are named (1 to 8), each place as FILE:LINE. It goes by text, so that
what it finds is where to look: docs/DESIGN-PASS.md says which places are kept, and why.
"""
import collections
import pathlib
import re
import sys

ROOT = pathlib.Path(__file__).resolve().parent.parent
TYPE = re.compile(r"\b(?:[A-Z]\w*|[ui](?:8|16|32|64|128|size)|bool)\b")
FUNCTION = re.compile(r"^(\s*)(?:pub(?:\([^)]*\))? )?(?:extern \"C\" )?fn (\w+)")


def sources():
    for path in sorted(ROOT.glob("crates/*/src/**/*.rt")):
        yield path.relative_to(ROOT), path.read_text().split("\n")


def block(lines, start):
    """The lines behind line `start` up to the brace that closes at its indent."""
    indent = len(lines[start]) - len(lines[start].lstrip())
    end = start + 1
    while end < len(lines) and not (lines[end].startswith(" " * indent + "}")):
        end += 1
    return lines[start + 1 : end]


def functions():
    """Of each function: its file, line, name, parameters, and the lines of its body without comments."""
    for path, lines in sources():
        for at, line in enumerate(lines):
            found = FUNCTION.match(line)
            if not found:
                continue
            end = at
            while end < len(lines) and not (lines[end].rstrip().endswith("{") and not re.search(r"\b(?:requires|ensures)\b.*\{$", lines[end])):
                end += 1
            if end == len(lines):
                continue
            head = " ".join(text.strip() for text in lines[at : end + 1])
            inside = head[head.find("(") + 1 :].split(" requires ")[0].split(" ensures ")[0].split(") ->")[0]
            parameters = re.findall(r"(?:^|, |\( ?)(?:mut )?(\w+): ([^,]+?)(?=,|\)|$)", inside)
            body = [text.strip() for text in block(lines, end) if text.strip() and not text.strip().startswith("//")]
            yield path, at + 1, found[2], parameters, body


def choices():
    """Enums of at most four cases, of which one at least holds something: some have the shape of Option or Result."""
    for path, lines in sources():
        for at, line in enumerate(lines):
            if not re.match(r"\s*(?:pub )?enum \w+", line):
                continue
            cases = [text for text in block(lines, at) if re.match(r"^ {4}\w", text)]
            if len(cases) <= 4 and any("(" in text or "{" in text for text in cases):
                yield path, at + 1, line.strip(" {")


def codes():
    """Numbers for a kind, a rule set or a refusal: fields of a number type, and functions that make numbers of cases or back."""
    for path, lines in sources():
        for at, line in enumerate(lines):
            if re.match(r"\s+(?:pub )?(?:kind|what|block|rules|edition|over|own): (?:u\d+|bool),$", line):
                yield path, at + 1, line.strip()
            if re.match(r"\s*(?:pub )?fn \w*(?:number|kind|seat|goal|mark|rules|edition)\w*\(\w+: \w+.*\) -> \w+$", line):
                yield path, at + 1, line.strip()


def twins():
    """Functions whose bodies are the same but for names, types and numbers, by groups."""
    groups = collections.defaultdict(list)
    for path, at, name, parameters, body in functions():
        text = " ".join(body)
        text = re.sub(r"\b\d[\w]*\b", "0", TYPE.sub("T", text))
        names = {}
        text = re.sub(r"\b[a-z_]\w*\b", lambda m: names.setdefault(m[0], f"v{len(names)}"), text)
        if len(text) > 20:
            groups[text].append((path, at, name))
    for group in groups.values():
        if len(group) > 1:
            yield from group


def counted_loops():
    """Loops that count an index by hand."""
    for path, lines in sources():
        for at, line in enumerate(lines):
            found = re.match(r"\s*(while|loop)\b(.*)\{$", line)
            if not found:
                continue
            body = "\n".join(block(lines, at))
            steps = re.findall(r"^\s*(\w+) [+-]= (?:\d+|[A-Z_]+);", body, re.M)
            if any(found[1] == "loop" or re.search(rf"\b{step}\b", found[2]) for step in steps):
                yield path, at + 1, line.strip()


def by_hand():
    """Conversions, comparisons and access that the library has: a body of one cast, a choice of the lesser, an element or 0."""
    for path, at, name, parameters, body in functions():
        text = " ".join(body)
        if (
            re.fullmatch(r"\w+ as \w+", text)
            or re.fullmatch(r"if (\w+) < (\w+) \{ \w+ \} else \{ \w+ \}", text)
            or re.fullmatch(r"if \w+ \{ 1 \} else \{ 0 \}", text)
            or re.fullmatch(r"if (\w+ < \w+\.len\(\)) \{ return \w+\[\w+\]( as \w+)?; \} 0", text)
            or re.fullmatch(r"if (\w+\.len\(\) <= \w+) \{ return 0; \} \w+\[\w+\]", text)
            or re.fullmatch(r"match \w+ \{ (?:[\w:]+ => \d+, ?)+\}", text)
        ):
            yield path, at, name


def together():
    """Three parameters or more, by name and type, that three functions or more of a crate take."""
    taken = collections.defaultdict(list)
    for path, at, name, parameters, body in functions():
        taken[path.parts[1]].append((path, at, name, frozenset(parameters)))
    for crate, signatures in taken.items():
        sets = collections.Counter()
        for a in range(len(signatures)):
            for b in range(a):
                common = signatures[a][3] & signatures[b][3]
                if len(common) >= 3:
                    sets[common] += 1
        for common in sets:
            users = [s for s in signatures if common <= s[3]]
            if len(users) >= 3 and not any(common < other and sum(other <= s[3] for s in signatures) >= 3 for other in sets):
                yield users[0][0], users[0][1], f"{len(users)} functions: " + ", ".join(sorted(n for n, _ in common))


def lengths():
    """A list with the number of its elements beside it in one signature."""
    for path, at, name, parameters, body in functions():
        types = dict(parameters)
        if any(kind.startswith(("&[", "&mut [")) for kind in types.values()) and {"n", "count", "len"} & {n for n, t in parameters if t == "usize"}:
            yield path, at, name


def switches():
    """Parameters that say which step to run."""
    for path, at, name, parameters, body in functions():
        if any(n in ("what", "by") for n, t in parameters):
            yield path, at, name


def answers():
    for path in sorted(ROOT.glob("crates/*/proofs/**/Answers.antt")):
        yield path.relative_to(ROOT), 1, f"{len(path.read_text().splitlines())} lines"


POINTS = [
    ("1", "enums of at most four cases that hold something", choices),
    ("1", "numbers and flags for cases", codes),
    ("2", "functions that differ in names, types and numbers alone", twins),
    ("3", "loops that count an index by hand", counted_loops),
    ("4", "conversions, comparisons and access by hand", by_hand),
    ("5", "parameters that travel together", together),
    ("6", "lists with their length beside them", lengths),
    ("7", "parameters that say which step to run", switches),
    ("8", "files of answers", answers),
]


def main():
    for point, title, find in POINTS:
        found = list(find())
        print(f"{point}  {len(found):4}  {title}")
        if point in sys.argv[1:]:
            for path, line, text in found:
                print(f"        {path}:{line}: {text}")


main()
