"""trial.py: what the trials of commands share (try_banks.py, try_hex.py, try_walk.py). A command is run with little stack, its
status, standard output and standard error are held against what they must be, and what passed and failed is counted.
Another program than ./sillmarble is tried by SILLMARBLE=PATH."""
import os
import pathlib
import resource
import subprocess
import sys
import tempfile

ROOT = pathlib.Path(__file__).resolve().parent.parent
PROGRAM = os.environ.get("SILLMARBLE", str(ROOT / "sillmarble"))
TELLS = " (--help tells all)"
counted = {True: 0, False: 0}


def limited():
    """A program has to do with 6 MiB of stack, three quarters of what it usually has."""
    resource.setrlimit(resource.RLIMIT_STACK, (6 << 20, resource.getrlimit(resource.RLIMIT_STACK)[1]))


def run(*words, out=subprocess.PIPE):
    """What a command comes to: its status, the bytes of its standard output, and its standard error."""
    came = subprocess.run([PROGRAM, *map(str, words)], stdout=out, stderr=subprocess.PIPE, preexec_fn=limited)
    return came.returncode, came.stdout or b"", came.stderr.decode()


def count(well, label):
    counted[bool(well)] += 1
    if not well:
        print("failed:", label)


def try_(status, out, err, *words):
    """Runs a command that must come to this; `out` is text or bytes, and `err` a line, or empty."""
    came = run(*words)
    wanted = (status, out.encode() if isinstance(out, str) else out, err and err + "\n")
    count(came == wanted, f"sillmarble {' '.join(map(str, words))}: {came[0]}, {came[1][-200:]}, {came[2]}")


def try_help(command, form, *tells):
    """The help of a command begins with its form, and tells this too."""
    status, out, err = run(command, "--help")
    text = out.decode()
    count(status == 0 and not err and text.startswith(form) and all(word in text for word in tells), f"{command} --help")


def try_full(*words):
    """A command that can't write what it has to say."""
    with open("/dev/full", "wb") as full:
        came = run(*words, out=full)
    count((came[0], came[2]) == (2, "unwritten: standard output: No space left on device\n"), f"{words[0]} to a full device")


def put(path, data):
    path.write_bytes(data)
    return path


def main(says, first, *trials):
    """Runs trials, each in the same empty folder, and ends with what passed and failed. `first` are commands that are run once
    more than needed, so that building a program is not taken for its words. `says` is what the script says of itself."""
    if len(sys.argv) > 1:
        print(says)
        return 2
    with tempfile.TemporaryDirectory() as name:
        for words in first:
            run(*words)
        for trial in trials:
            trial(pathlib.Path(name))
    print(f"{counted[True]} passed, {counted[False]} failed")
    return counted[False] != 0
