#!/usr/bin/env python3
"""Writes the datasets of framed cases as files of their own, each once: 1, 2, 3 and so on.

    tools/datasets.py CASES FOLDER
"""
import pathlib
import struct
import sys


def main():
    if len(sys.argv) != 3:
        sys.exit(__doc__)
    data, folder, seen, at = pathlib.Path(sys.argv[1]).read_bytes(), pathlib.Path(sys.argv[2]), set(), 0
    while at < len(data):
        dataset, update = struct.unpack_from("<II", data, at + 1)
        found = data[at + 17:at + 17 + dataset]
        at += 17 + dataset + update
        if found not in seen:
            seen.add(found)
            (folder / str(len(seen))).write_bytes(found)
    print(f"{len(seen)} datasets")


if __name__ == "__main__":
    main()
