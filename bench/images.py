# SPDX-License-Identifier: Apache-2.0
"""What bench/run times and bench/copies counts: the rows of the program bench, by the number that it is told, and images.
States: n active locks, one ECU each; m defunct entries, each pointing at the next (m - 1 links)."""
import struct

operations = ["loop", "test", "insert_active", "insert_vehicle", "renew", "delete", "begin_expiration", "commit_replacement", "acknowledge_defunct", "expire_defunct"]
names = operations + ["read_image", "write_image", "copy of the bytes", "copy of the state"]
sizes = [(1, 0), (16, 0), (64, 0), (64, 128)]

def record(kind, body):
    return struct.pack("<HH", len(body) + 2, kind) + body

def start(number, ecu, subject):
    set_of = bytearray(32)
    set_of[ecu // 8] |= 1 << (ecu % 8)
    return struct.pack(">QQ", number << 40, number) + bytes([1, ecu, 0, 1]) + bytes(set_of) + struct.pack("<HII", subject, 1, 2)

def image(active, defunct):
    out = record(1, struct.pack("<QIHH", 7, 0, active, defunct))
    for i in range(active):
        out += record(2, start(2 * i + 1, i, i % 4) + struct.pack("<QB", 1000, 0) + bytes(16))
    for i in range(defunct):
        n = 2 * i + 2
        target = struct.pack(">QQ", (n + 2) << 40, n + 2)
        out += record(3, start(n, 100 + i, 9) + struct.pack("<QQI", 1000, 500, 3) + target + struct.pack("<H", 5))
    return out

def image_for(name, size):
    """One lock or entry short of a limit that the operation would pass: full tables refuse it (13)."""
    active, defunct = size
    return image(min(active, 63) if name.startswith("insert") else active, min(defunct, 127) if name == "commit_replacement" else defunct)

def heading(text, wide=9):
    print(text.ljust(22) + "".join(f"{a}/{d}".rjust(wide) for a, d in sizes))
