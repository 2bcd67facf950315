#!/usr/bin/env python3
"""Breaks the long lines of .antt files, and says how long lines are.

    tools/lines.py FILE..    breaks the lines of over 200 characters, where the fewest brackets are open; then `rt fmt`
    tools/lines.py           how many lines have over 300 characters, and the longest
"""
import pathlib
import re
import subprocess
import sys

WIDEST, BROKEN = 200, 150   # a line that is longer than the first is broken into lines of at most the second
ROOT = pathlib.Path(__file__).resolve().parent.parent


def break_lines(paths):
    for parts in opened, broken, broken:    # `rt fmt` may indent what follows more than it was here
        for path in paths:
            text = path.read_text()
            names = set(re.findall(r"^abbrev (\S+) : tie\.", text, re.M))
            path.write_text("\n".join(part for line in text.split("\n") for part in parts(line, names)))
        for crate in sorted({ROOT / "crates" / path.resolve().relative_to(ROOT / "crates").parts[0] for path in paths}):
            subprocess.run(["rt", "fmt"], cwd=crate, check=True, stdout=subprocess.DEVNULL)


def opened(line, names):
    """A long line with a long record in it: `rt fmt` gives each field a line once one of them has one."""
    for record in re.finditer(r"\brecord \{ ", line):
        depth = [1]
        for sign in line[record.end():]:
            depth.append(depth[-1] + (sign == "{") - (sign == "}"))
        if len(line) > WIDEST and 0 in depth and depth.index(0) > BROKEN:
            yield line[:record.end() - 1]
            line = re.match(r"\s*", line)[0] + "      " + line[record.end():]
            break
    yield line


def broken(line, names):
    """The parts of a line; a name of a place stays with what follows it."""
    indent = re.match(r"\s*", line)[0]
    comment = line.lstrip().startswith("--")
    while len(line) > WIDEST and not line.startswith("use "):
        depth, found = 0, []
        for i, sign in enumerate(line[:WIDEST]):
            depth += (sign in "([{") - (sign in ")]}")
            if sign == " " and i > len(indent) + 8 and not re.match(r" (\.|[:=]|in\b)", line[i:]):
                if re.split(r"[\s(]", line[:i])[-1] not in names:
                    found.append((not BROKEN // 3 < i < BROKEN, 0 if comment else depth, i < BROKEN * 2 // 3, -i))
        if not found:
            break
        at = -min(found)[3]
        yield line[:at]
        line = indent + ("-- " if comment else "    ") + line[at + 1:]
    yield line


def measure():
    lines = [(len(line), path) for path in sorted((ROOT / "crates").rglob("*.antt")) if "out" not in path.parts
             for line in path.read_text().split("\n")]
    longest, where = max(lines)
    print(f"lines over 300: {sum(n > 300 for n, _ in lines)}, longest: {longest} ({where.relative_to(ROOT)})")


if __name__ == "__main__":
    break_lines([pathlib.Path(name) for name in sys.argv[1:]]) if len(sys.argv) > 1 else measure()
