#!/usr/bin/env python3
"""Writes ours.txt and theirs.txt beside this script: sample records for reconcile, the same at every run."""
import hashlib
import os

COUNT = 1213
OURS_ONLY = {17, 450, 451, 803, 1150}
THEIRS_ONLY = {0, 99, 100, 101, 640, 1001, 1212}


def records():
    """Each record is a time and an id. About one in sixteen has the time of the one before it."""
    time = 1735689600  # 2025-01-01 00:00:00 UTC
    for number in range(COUNT):
        digest = hashlib.sha256(b"sample record %d" % number).digest()
        time += 37 * (digest[0] % 16)
        yield time, digest.hex()


def write(name, order, lines):
    with open(os.path.join(os.path.dirname(os.path.abspath(__file__)), name), "w", encoding="ascii") as file:
        file.write(f"# Sample records for reconcile, written by make-records.py: TIME ID, in the order of their {order}.\n")
        file.writelines(f"{time} {id_}\n" for time, id_ in lines)


def main():
    numbered = list(enumerate(records()))
    write("ours.txt", "times", sorted(record for number, record in numbered if number not in THEIRS_ONLY))
    theirs = (record for number, record in numbered if number not in OURS_ONLY)
    write("theirs.txt", "ids", sorted(theirs, key=lambda record: record[1]))


main()
