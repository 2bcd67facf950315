"""Asks the Rust about cases, and says what the definition must therefore give."""
import json
import struct
import subprocess
from dataclasses import dataclass

GRADES = {"RefOnly": 0, "SymWithoutRef": 1, "GoodSym": 2, "ReferencedGoodSym": 3}
# What the driver is asked for: the printed table too, the segments alone, or the two lists of the search alone.
PRINTED, SEGMENTS, SEARCHED = 4, 8, 16
CONVERT_ERRORS = {
    "Error: unknown reference type": 10,
    "Error: Unknown id_blk": 11,
    "Error: Content outside of segment boundaries": 12,
}


@dataclass
class Expected:
    # How the case is counted: "on 0", "off 7", "off omission" ..
    label: str
    number: int
    lines: list
    # What is printed; None where a name is not ASCII, since the Rust counts characters there.
    text: bytes = b""


def asking(flags, run, library):
    """A case as the driver reads it."""
    flags |= run.depth | (run.skip is not None) << 1
    sized = [struct.pack("<I", len(b)) + b for b in (run.image, library)]
    return struct.pack("<BQQ", flags, run.minimum, run.skip or 0) + b"".join(sized)


def answers(program, asked):
    """One answer a case, the printed table beside it under "printed"."""
    said = subprocess.run([program], input=b"".join(asked), stdout=subprocess.PIPE, check=True).stdout
    found, at = [], 0
    while at < len(said):
        line = said.index(b"\n", at)
        answer = json.loads(said[at:line])
        begin, end = (b"\x1e%s %d\n" % (word, len(found)) for word in (b"BEGIN", b"END"))
        at = line + 1
        if said.startswith(begin, at):
            last = said.index(end, at)
            answer["printed"], at = said[at + len(begin):last], last + len(end)
        found.append(answer)
    return found


def listed(answer, label, renamed):
    """The expectation from a list; `renamed` puts back the bytes that the Rust was not asked about.
    None where there is no list, or the Rust repaired a name."""
    if answer["outcome"] != "ok" or any("\ufffd" in row["name"] for row in answer["rows"]):
        return None
    old, new = renamed or (b"~", b"~")
    lines = [(row["location"], GRADES[row["goodness"]], row["name"].encode().replace(old, new)) for row in answer["rows"]]
    ascii_ = all(row["name"].isascii() for row in answer["rows"])
    return Expected(label, 0, lines, answer["printed"].replace(old, new) if ascii_ else None)


def refused(number, label="on"):
    return Expected(f"{label} {number}", number, [])


def reading(answer, checked):
    """What reading alone comes to, from the answers of the two builds: 5 to 8, or 0 where it went through; None
    where the Rust does not tell. Either build stops at the first panic, so `checked` tells 7 from 8 where both are due."""
    if checked["outcome"] == "panic" and "subtract with overflow" in checked["text"]:
        return 7
    if answer["outcome"] == "unread":
        return 6 if answer["text"] == "incomplete" else 5
    if answer["outcome"] == "panic" and answer["stage"] == "read":
        return 8 if "left == right" in answer["text"] else None
    return 0


def expected(case, answer, checked, instead):
    """From the release build's answer, the checked build's, and the one about `asked`; None where the
    Rust does not tell what must come."""
    outcome, stage = answer["outcome"], answer.get("stage")
    if case.renamed:
        return listed(instead, "off raw names", case.renamed)
    if case.asked is not None:
        return listed(instead, "off omission", None) if outcome == "panic" and stage == "search" else None
    number = reading(answer, checked)
    if number:
        return refused(number, "on" if number < 7 else "off")
    if outcome == "ok":
        return listed(answer, "on 0", None)
    if outcome == "convert error":
        return refused(CONVERT_ERRORS[answer["text"]])
    if stage == "convert" and "`None` value" in answer["text"]:
        return refused(13, "off")
    return None


def programs(folder):
    """The two programs, release and checked, under the folder that build.sh was given."""
    return [f"{folder}/target/{profile}/libfind-oracle" for profile in ("release", "checked")]


def ask(folder, runs):
    """The expectation of each run: the list and the printed table, or a number."""
    release, checked = programs(folder)
    asked = [asking(PRINTED, run, run.library) for run in runs]
    instead = [asking(PRINTED, run, run.library if run.asked is None else run.asked) for run in runs]
    found = zip(runs, answers(release, asked), answers(checked, asked), answers(release, instead))
    return [expected(*each) for each in found]


def shown(folder, runs, stage):
    """What a stage of each run leaves, as driver/shown.rs shows it."""
    return answers(programs(folder)[0], [asking(stage, run, run.library) for run in runs])
