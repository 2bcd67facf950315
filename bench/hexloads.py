#!/usr/bin/env python3
"""hexloads.py OUT: writes the texts and images of which docs/BENCHMARKS.md counts imports and exports, from seed 5."""
import pathlib
import random
import sys

ROOT = pathlib.Path(__file__).resolve().parent.parent
sys.path.insert(0, str(ROOT / "tools" / "oracle"))
from model.hex import exported, record_line  # noqa: E402

END = b":00000001FF\n"


def records(image, size):
    return b"".join(record_line(0, a, image[a:a + size]) for a in range(0, len(image), size)) + END


def main():
    out = pathlib.Path(sys.argv[1])
    out.mkdir(parents=True, exist_ok=True)
    rng = random.Random(5)
    image, blank = bytes(rng.randrange(256) for _ in range(0x10000)), b"\xFF" * 0x10000
    texts = {"random-16": exported(image)[1], "random-16-small": exported(image)[1].lower(), "blank-16": records(blank, 16),
             "blank-255": records(blank, 255), "blank-8": records(blank, 8), "blank-1": records(blank, 1),
             "random-1": records(image, 1).replace(b"\n", b"\r\n"), "no-data": record_line(0, 0xFFFF, b"") * 40000 + END}
    for name, text in texts.items():
        (out / f"{name}.hex").write_bytes(text)
    for size in (100, 4096, 0x10000):
        (out / f"random-{size}.img").write_bytes(image[:size])


if __name__ == "__main__":
    main()
