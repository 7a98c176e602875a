#!/usr/bin/env python3
"""Writes a dataset whose only record after the third is a multi point of so many tuples, in the narrowest widths that it can have.

    tools/soundings.py CHART COUNT OUT     the first three records are those of CHART
"""
import pathlib
import struct
import sys


def multi_point(count):
    """The multi point: widths 5 and 1, since its second field begins at 9."""
    identifier = struct.pack("<BIHB", 115, 1, 1, 1) + b"\x1e"
    places = b"".join(struct.pack("<ii", 541_800_000 + n, 121_400_000 + n) for n in range(count)) + b"\x1e"
    directory = b"MRID%05d0C2IL%05d9\x1e" % (len(identifier), len(places))
    base = 24 + len(directory)
    leader = b"%05d D     %05d   5104" % (base + len(identifier) + len(places), base)
    return leader + directory + identifier + places


def main():
    if len(sys.argv) != 4:
        sys.exit(__doc__)
    chart, at = pathlib.Path(sys.argv[1]).read_bytes(), 0
    for _ in range(3):
        at += int(chart[at:at + 5])
    pathlib.Path(sys.argv[3]).write_bytes(chart[:at] + multi_point(int(sys.argv[2])))


if __name__ == "__main__":
    main()
