#!/usr/bin/env python3
# SPDX-License-Identifier: Apache-2.0
"""make-story.py [TEXT [FEED]]: packs records in words (story.txt) into a feed (story.feed).

A line is NUMBER OPERATION KEY=VALUE ..; '#' starts a comment. The layout is document 01's, "Records (added)".
    insert             id scope covers subject expires [exclusive principal metadata parent]
    insert_vehicle     the same, and children=ID,ID
    renew              id expires now [metadata]
    delete, acknowledge  id
    begin_expiration   id now
    replace            as insert, and by at roots=ID,ID
    expire_defunct     now
scope is vehicle, ecu:N or group:N; covers is vehicle, a list of ECU numbers, or none. cut=N keeps the record's first N bytes.
"""
import os
import struct
import sys

KINDS = {
    "insert": 16,
    "insert_vehicle": 17,
    "renew": 18,
    "delete": 19,
    "begin_expiration": 20,
    "replace": 21,
    "acknowledge": 22,
    "expire_defunct": 23,
}


def lock_id(text):
    return int(text).to_bytes(16, "big")


def ids(text):
    listed = [lock_id(part) for part in text.split(",") if part]
    return struct.pack("<H", len(listed)) + b"".join(listed)


def scope(text):
    kind, _, number = text.partition(":")
    return bytes([["vehicle", "ecu", "group"].index(kind), int(number or 0)])


def coverage(text):
    if text == "vehicle":
        return bytes(33)
    ecus = 0
    if text != "none":
        for ecu in text.split(","):
            ecus |= 1 << int(ecu)
    return bytes([1]) + ecus.to_bytes(32, "little")


def active(a):
    """The ACTIVE body: lock start, expiry, has-parent, parent."""
    covered = coverage(a["covers"])
    start = lock_id(a["id"]) + scope(a["scope"]) + bytes([int(a.get("exclusive", 0))]) + covered
    start += struct.pack("<HII", int(a["subject"]), int(a.get("principal", 0)), int(a.get("metadata", 0)))
    parent = a.get("parent")
    return start + struct.pack("<QB", int(a["expires"]), parent is not None) + lock_id(parent or 0)


def body(operation, a):
    if operation == "insert":
        return active(a)
    if operation == "insert_vehicle":
        return active(a) + ids(a["children"])
    if operation == "renew":
        given = "metadata" in a
        return lock_id(a["id"]) + struct.pack("<QQBI", int(a["expires"]), int(a["now"]), given, int(a.get("metadata", 0)))
    if operation in ("delete", "acknowledge"):
        return lock_id(a["id"])
    if operation == "begin_expiration":
        return lock_id(a["id"]) + struct.pack("<Q", int(a["now"]))
    if operation == "replace":
        return active(a) + struct.pack("<IQ", int(a["by"]), int(a["at"])) + ids(a["roots"])
    return struct.pack("<Q", int(a["now"]))


def record(line):
    number, operation, *rest = line.split()
    arguments = dict(word.split("=", 1) for word in rest)
    inner = struct.pack("<HI", KINDS[operation], int(number)) + body(operation, arguments)
    whole = struct.pack("<H", len(inner)) + inner
    return whole[: int(arguments.get("cut", len(whole)))]


def main():
    here = os.path.dirname(os.path.abspath(__file__))
    source = sys.argv[1] if len(sys.argv) > 1 else os.path.join(here, "story.txt")
    target = sys.argv[2] if len(sys.argv) > 2 else os.path.join(here, "story.feed")
    with open(source, encoding="utf-8") as text:
        lines = [line.split("#")[0].strip() for line in text]
    feed = b"".join(record(line) for line in lines if line)
    with open(target, "wb") as out:
        out.write(feed)
    print(f"{target}: {len(feed)} bytes")


main()
