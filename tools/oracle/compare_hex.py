#!/usr/bin/env python3
"""Holds the model of Intel HEX (model/hex.py) against three programs of Debian, both ways, where all of them speak of the
same thing: srec_cat (package srecord), objcopy (binutils) and packihx (sdcc). They must be on the path.

Of an image with at least one byte, objcopy's text must be the model's, but for its CR; srec_cat's and packihx's must import
as the image. Of a text that the model imports as at least one byte, srec_cat and objcopy must make the same bytes, with FFh
in the gaps (objcopy's begin at the lowest address that is given), and packihx's text must import alike. Texts that the model
refuses are not compared: the programs are laxer (a byte given twice, no end record, empty lines, data past FFFFh), and
refuse texts without data. The status is 1 if one differs."""
import argparse
import pathlib
import random
import subprocess
import sys
import tempfile

from cases import hex_texts
from model.hex import exported, imported, lines, record


def run(*words, out=None):
    """Whether a program ended well; what it wrote goes to a file, or away."""
    with open(out or "/dev/null", "wb") as file:
        return subprocess.run([str(w) for w in words], stdout=file, stderr=subprocess.DEVNULL).returncode == 0


class Comparison:
    def __init__(self, folder):
        self.folder, self.compared, self.differing = folder, 0, 0

    def path(self, name, bytes_=None):
        path = self.folder / name
        if bytes_ is not None:
            path.write_bytes(bytes_)
        return path

    def same(self, label, given, wanted, got):
        self.compared += 1
        if wanted != got:
            self.differing += 1
            print(label, "differs:", given.hex(), "\n  wanted", wanted, "\n  got   ", got)

    def image(self, image):
        text = exported(image)[1]
        binary, out = self.path("in.bin", image), self.path("out.hex")
        run("objcopy", "-I", "binary", "-O", "ihex", binary, out)
        self.same("objcopy, export", image, text, out.read_bytes().replace(b"\r\n", b"\n"))
        run("srec_cat", binary, "-binary", "-o", out, "-intel", "-address-length=2", "-line-length=44")
        self.same("srec_cat, export", image, (0, image), imported(out.read_bytes()))
        run("packihx", self.path("in.hex", text), out=out)
        self.same("packihx, of an export", image, (0, image), imported(out.read_bytes()))

    def text(self, text):
        number, image = imported(text)
        if number or not image:
            return
        # The programs read past the end record; what stands behind it is no part of what is compared.
        records = []
        for line in lines(text):
            records.append(record(line))
            if records[-1][3] == 1:
                break
        kept = b"".join(b":" + r.hex().encode() + b"\n" for r in records)
        low = min(r[1] << 8 | r[2] for r in records if r[3] == 0 and r[0])
        source, out = self.path("in.hex", kept), self.path("out.bin")
        if run("objcopy", "-I", "ihex", "-O", "binary", "--gap-fill", "0xFF", source, out):
            self.same("objcopy, import", text, image[low:], out.read_bytes())
        if run("srec_cat", source, "-intel", "-fill", "0xFF", "0", str(len(image)), "-o", out, "-binary"):
            self.same("srec_cat, import", text, image, out.read_bytes())
        if run("packihx", source, out=out):
            self.same("packihx, import", text, (0, image), imported(out.read_bytes()))


def main():
    words = argparse.ArgumentParser(description=__doc__)
    words.add_argument("--seed", type=int, default=1)
    words.add_argument("--texts", type=int, default=300, help="random texts")
    words.add_argument("--images", type=int, default=100, help="random images")
    asked = words.parse_args()
    rng = random.Random(asked.seed)
    with tempfile.TemporaryDirectory() as folder:
        comparison = Comparison(pathlib.Path(folder))
        texts = {text for text in hex_texts.texts(rng, asked.texts)}
        for text in sorted(texts):
            comparison.text(text)
        for image in sorted({i for i in hex_texts.images(rng, asked.images) if 0 < len(i) <= 0x10000}):
            comparison.image(image)
    print(comparison.compared, "compared,", comparison.differing, "differ")
    return comparison.differing != 0


if __name__ == "__main__":
    sys.exit(main())
