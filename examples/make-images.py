#!/usr/bin/env python3
# SPDX-License-Identifier: Apache-2.0
"""Writes the images that the programs look and sweep are run on, from document 01's "Records" alone. Run anywhere; it
writes the same bytes each time."""
import os, struct

top = os.path.join(os.path.dirname(os.path.abspath(__file__)), "..", "crates")

def record(kind, body):
    return struct.pack("<HH", len(body) + 2, kind) + body

def head(revision, expected, active, defunct):
    return record(1, struct.pack("<QIHH", revision, expected, active, defunct))

def identity(text):
    return bytes.fromhex(text.replace("-", "").rjust(32, "0"))

VEHICLE, ECU, GROUP = 0, 1, 2

# cover: "whole", or the ECUs of the set.
def start(number, scope, cover, subject, exclusive=0, principal=0, metadata=0):
    ecus = bytearray(32)
    for e in [] if cover == "whole" else cover:
        ecus[e // 8] |= 1 << (e % 8)
    kind = bytes([*scope, exclusive, 0 if cover == "whole" else 1])
    return identity(number) + kind + bytes(ecus) + struct.pack("<HII", subject, principal, metadata)

def active(lock, expires, parent=None):
    return record(2, lock + struct.pack("<QB", expires, parent is not None) + identity(parent or "0"))

def defunct(lock, expires, broken, by, target, holder):
    return record(3, lock + struct.pack("<QQI", expires, broken, by) + identity(target) + struct.pack("<H", holder))

def image(revision, expected, actives, defuncts):
    return head(revision, expected, len(actives), len(defuncts)) + b"".join(actives) + b"".join(defuncts)

def write(path, data):
    path = os.path.join(top, path)
    os.makedirs(os.path.dirname(path), exist_ok=True)
    with open(path, "wb") as f:
        f.write(data)

# ---- look: an empty image, a rich one, a damaged one, an unsound one
CAR = "0a6f3c52-8d1e-4b77-9c40-5e21d7f0b3a1"
BODY = "3b9d11e0-42a7-4f5c-8e16-0c7a94d2e8f5"
DOOR = "7c25a9f4-e6b3-4810-b2d9-f13e6805ac47"
IDLE = "e81f04d7-95c2-4a3e-a6b8-24d0739c1f6b"
OLD = ["1f4c7b90-6a2d-4e83-95f1-d8b03e72c64a", "58e2d3a6-0b9f-4c71-8a45-7f16c9e0b23d", "b07a6e19-d354-48cf-9be2-63a1f5d8047c"]
rich = [
    active(start(CAR, (VEHICLE, 0), "whole", 4, 1, 77, 5), 1700000600000),
    active(start(BODY, (GROUP, 3), [5, 6, 7, 9], 4), 1700000500000, CAR),
    active(start(DOOR, (ECU, 0), [0, 254, 255], 65535), 18446744073709551615),
    active(start(IDLE, (ECU, 200), [], 6), 1700000300000),
]
chain = [
    defunct(start(OLD[0], (ECU, 12), [12], 2), 1700000100000, 1700000050000, 31, OLD[1], 3),
    defunct(start(OLD[1], (GROUP, 1), range(256), 3), 1700000200000, 1700000090000, 32, IDLE, 5),
    defunct(start(OLD[2], (VEHICLE, 0), "whole", 9), 1700000200000, 1700000090000, 4294967295, "d" * 32, 8),
]
whole = image(42, 17, rich, chain)
write("look/data/empty", image(0, 0, [], []))
write("look/data/rich", whole)
write("look/data/damaged", whole[:-1])
write("look/data/unsound", image(42, 17, rich[1:], chain))
write("look/stdin", whole[:20] + whole[111:])

# ---- sweep: ids and scopes a byte apart, so that one changed byte reaches every rule from 1 to 9
family = [
    active(start("0", (VEHICLE, 0), "whole", 4, 1, 77, 5), 1000),
    active(start("1", (ECU, 5), [5, 6], 4), 900, "0"),
    active(start("2", (ECU, 20), [20], 6), 800),
]
links = [
    defunct(start("3", (ECU, 12), [12], 2), 700, 600, 31, "4", 3),
    defunct(start("4", (GROUP, 1), [1, 2, 3, 255], 3), 700, 600, 32, "5", 6),
    defunct(start("5", (VEHICLE, 0), "whole", 9), 500, 400, 33, "2", 6),
]
write("sweep/stdin", image(7, 3, family, links))
