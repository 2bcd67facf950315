"""Has the checker compute cases: a scratch repository with the definition's crates and one crate a batch."""
import re
import shutil
import subprocess
from concurrent.futures import ThreadPoolExecutor
from pathlib import Path

from definition import template

# The checker's words where the two sides of a theorem differ; it then shows what they compute to,
# unless that is too long.
DIFFERS = re.compile(r"error: `case-(\d+)`: (?:as printed, the two types|computed as far as they go|expected type)")
COMPUTED = re.compile(r"(?:computed as far as they go|what the two types compute to).*?(?=\n  expected type|\Z)", re.DOTALL)


class Unclear(Exception):
    """The checker failed for a reason that is no case's."""


def scratch(definition, folder):
    """A copy of the definition's crates. `rt check` of a crate above them takes what was proved of them on this machine, since they are not changed."""
    source, folder = Path(definition), Path(folder)
    for crate in template.CRATES:
        shutil.copytree(source / "crates" / crate, folder / "crates" / crate, ignore=shutil.ignore_patterns("out"))
    lines = (source / "crates.txt").read_text(encoding="utf-8").splitlines()
    own = [line for line in lines if line.split(":")[0] in template.CRATES]
    (folder / "crates.txt").write_text("\n".join(own) + "\n", encoding="utf-8")
    return folder


def run(folder, crates, jobs):
    """Checks crates, some at once. What is said of each that is not proved."""
    def one(crate):
        return subprocess.run(["rt", "check", "--jobs", "1"], cwd=folder / "crates" / crate, stdout=subprocess.PIPE, stderr=subprocess.STDOUT, check=False)
    with ThreadPoolExecutor(jobs) as pool:
        done = dict(zip(crates, pool.map(one, crates)))
    for each in done.values():
        if each.returncode not in (0, 1):
            raise Unclear(each.stdout.decode(errors="replace")[-4000:])
    return {crate: each.stdout.decode(errors="replace") for crate, each in done.items() if each.returncode}


def write(folder, crate, batch, lent):
    home = folder / "crates" / crate
    for part in ("src", "specs"):
        (home / part).mkdir(parents=True, exist_ok=True)
    (home / "src" / "lib.rt").write_text("// Cases, in specs/.\n#![tactic(auto)]\n", encoding="utf-8")
    (home / "specs" / "Lib.antt").write_text("pub mod Cases\n", encoding="utf-8")
    (home / "specs" / "Cases.antt").write_text(template.module(folder, batch, lent), encoding="utf-8")
    listed = (folder / "crates.txt").read_text(encoding="utf-8")
    if f"\n{crate}:" not in listed:
        line = f"{crate}: {' '.join(template.CRATES)}\n"
        (folder / "crates.txt").write_text(listed.rstrip("\n") + "\n" + line, encoding="utf-8")


def differing(log):
    """The numbers of the cases that an output names, each with what the checker computed. Any other
    error is no difference, but a fault of what was written."""
    found = {}
    for part in re.split(r"(?m)^(?=\S+: error: )", log)[1:]:
        named, computed = DIFFERS.search(part), COMPUTED.search(part)
        if not named:
            raise Unclear(part[:2000])
        found[int(named[1])] = computed[0] if computed else "the checker does not show what it computed"
    return found


def check(folder, batches, jobs, lent):
    """The cases that differ; a batch has (number, statement). It is tried again without them, so that every other case was in a
    crate that was proved."""
    waiting = {f"cases_{i}": batch for i, batch in batches}
    found = {}
    while waiting:
        for crate, batch in waiting.items():
            write(folder, crate, batch, lent)
        again = {}
        for crate, log in run(folder, waiting, jobs).items():
            new = differing(log)
            if not new:
                raise Unclear(log[:4000])
            found.update(new)
            left = [each for each in waiting[crate] if each[0] not in new]
            if left:
                again[crate] = left
        waiting = again
    return found
