#!/usr/bin/env python3
"""listings.py CASES ANSWERS FILE..: runs the listing program on each file; writes the files as framed cases of operation 4,
and what the program printed as their answers, for `ez second compare`."""
import struct
import subprocess
import sys


def hashed(text):
    """FNV-1a, 64 bits."""
    h = 0xCBF29CE484222325
    for byte in text:
        h = (h ^ byte) * 0x100000001B3 % 2**64
    return h


def main(cases, answers, files):
    with open(cases, "wb") as framed, open(answers, "w") as said:
        for name in files:
            with open(name, "rb") as file:
                data = file.read()
            run = subprocess.run(["host/launch", "crates/listing_program/out/listing_program"], input=data, stdout=subprocess.PIPE, check=True)
            framed.write(struct.pack("<BIIII", 4, len(data), 0, 0, 0) + data)
            said.write(f"listing {len(run.stdout)} {hashed(run.stdout):016x}\n")


main(sys.argv[1], sys.argv[2], sys.argv[3:])
