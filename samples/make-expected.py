#!/usr/bin/env python3
"""Prints what reconcile must write for the record files OURS and THEIRS with the default cut.

    ./make-expected.py ours.txt theirs.txt >expected.txt
    ./make-expected.py [--format text|tsv|json] [--stats] OURS THEIRS

The missing records are the differences of the two sets of lines. The messages are made by an implementation of the two
ends that shares nothing with the library. With --format tsv, what --stats adds goes to standard error, as reconcile's does.
"""
import argparse
import hashlib
import json
import sys

PARTS, LIMIT = 16, 64
START = (0, b"")
INFINITY = (1 << 64, b"")
SKIP, FINGERPRINT, IDS = 0, 1, 2


def load(path):
    with open(path, encoding="ascii") as file:
        lines = [line.split() for line in file if line.strip() and not line.startswith("#")]
    return sorted((int(time), bytes.fromhex(id_)) for time, id_ in lines)


def between(table, lower, upper):
    # A prefix compares with ids as bytes do: the shorter comes first, as if 00 followed.
    return [item for item in table if lower <= item < upper]


def varint(value):
    digits = [value & 127]
    while value := value >> 7:
        digits.insert(0, value & 127 | 128)
    return bytes(digits)


def fingerprint(items):
    total = sum(int.from_bytes(id_, "little") for _, id_ in items) % (1 << 256)
    return hashlib.sha256(total.to_bytes(32, "little") + varint(len(items))).digest()[:16]


def bound_between(before, item):
    if before[0] != item[0]:
        return item[0], b""
    shared = next(k for k in range(32) if before[1][k] != item[1][k])
    return item[0], item[1][: shared + 1]


def cut(table, lower, upper):
    """The ranges that a differing range becomes: upper bound, mode, payload."""
    items = between(table, lower, upper)
    if len(items) <= LIMIT:
        return [(upper, IDS, [id_ for _, id_ in items])]
    ranges, at = [], 0
    for part in range(PARTS):
        # The odd items go to the last parts.
        end = at + len(items) // PARTS + (part >= PARTS - len(items) % PARTS)
        bound = upper if part == PARTS - 1 else bound_between(items[end - 1], items[end])
        ranges.append((bound, FINGERPRINT, fingerprint(items[at:end])))
        at = end
    return ranges


def size(ranges):
    """The bytes of a message: neighbouring skips are one range, and the last range is no skip."""
    kept = [r for r, following in zip(ranges, ranges[1:] + [None]) if r[1] != SKIP or following and following[1] != SKIP]
    message, time = bytes([0x61]), 0
    for (bound_time, prefix), mode, payload in kept:
        message += varint(0 if bound_time == INFINITY[0] else bound_time - time + 1) + varint(len(prefix)) + prefix
        message += varint(mode)
        if mode == IDS:
            message += varint(len(payload)) + b"".join(payload)
        elif mode == FINGERPRINT:
            message += payload
        time = bound_time
    return len(message)


def treat(table, ranges, on_ids):
    """The ranges that an end writes for those it is handed."""
    written, lower = [], START
    for upper, mode, payload in ranges:
        items = between(table, lower, upper)
        if mode == IDS:
            written.append(on_ids(upper, items, payload))
        elif mode == FINGERPRINT and payload != fingerprint(items):
            written += cut(table, lower, upper)
        else:
            written.append((upper, SKIP, None))
        lower = upper
    return written


def session(ours, theirs):
    """The sizes of the messages each way, and what the opener has reported in the end."""
    queries, replies, reported = [], [], (set(), set())

    def list_own(upper, items, _):
        return upper, IDS, [id_ for _, id_ in items]

    def report(upper, items, listed):
        reported[0].update(item for item in items if item[1] not in listed)
        reported[1].update(set(listed) - {id_ for _, id_ in items})
        return upper, SKIP, None

    query = cut(ours, START, INFINITY)
    while any(mode != SKIP for _, mode, _ in query):
        reply = treat(theirs, query, list_own)
        queries.append(size(query))
        replies.append(size(reply))
        query = treat(ours, reply, report)
    return queries, replies, reported


def text(records, stats, names):
    for side, time, id_ in records:
        print(f"{side + ' only':<12} {'-' if time is None else time} {id_}")
    if stats:
        print(f"rounds:         {stats['rounds']}")
        for way in "ours to theirs", "theirs to ours":
            messages, size_ = (stats[f"{way.replace(' ', '_')}_{what}"] for what in ("messages", "bytes"))
            print(f"{way}: {messages} messages, {size_} bytes")
    only = [sum(side == end for side, _, _ in records) for end in ("ours", "theirs")]
    print(f"{only[0]} records only in {names[0]}, {only[1]} only in {names[1]}")


def tsv(records, stats, _):
    print("side", "time", "id", sep="\t")
    for side, time, id_ in records:
        print(side, "-" if time is None else time, id_, sep="\t")
    for name, number in (stats or {}).items():
        print(name, number, sep="\t", file=sys.stderr)


def json_object(records, stats, _):
    fields = []
    for end in "ours", "theirs":
        rows = [json.dumps({"time": time, "id": id_}) for side, time, id_ in records if side == end]
        fields.append(f'"{end}_only": [' + ("\n" + ",\n".join(rows) + "\n" if rows else "") + "]")
    if stats:
        fields.append(f'"stats": {json.dumps(stats)}')
    print("{\n" + ",\n".join(fields) + "\n}")


FORMATS = {"text": text, "tsv": tsv, "json": json_object}


def main():
    parser = argparse.ArgumentParser()
    parser.add_argument("--format", choices=FORMATS, default="text")
    parser.add_argument("--stats", action="store_true")
    parser.add_argument("files", nargs=2)
    arguments = parser.parse_args()
    ours, theirs = map(load, arguments.files)
    queries, replies, reported = session(ours, theirs)
    ours_only = sorted(set(ours) - set(theirs))
    theirs_only = sorted(id_ for _, id_ in set(theirs) - set(ours))
    assert (set(ours_only), set(theirs_only)) == reported
    stats = {
        "rounds": len(queries),
        "ours_to_theirs_messages": len(queries),
        "ours_to_theirs_bytes": sum(queries),
        "theirs_to_ours_messages": len(replies),
        "theirs_to_ours_bytes": sum(replies),
    }
    records = [("ours", time, id_.hex()) for time, id_ in ours_only] + [("theirs", None, id_.hex()) for id_ in theirs_only]
    FORMATS[arguments.format](records, stats if arguments.stats else None, arguments.files)


main()
