#!/usr/bin/env python3
"""A replay of 3.18.0 as a newer recorder might have it: version 3.19.7, all payloads but the codes' longer by 7 bytes, and an unknown event behind each."""
import sys

UNKNOWN, SIZE, MORE = 0x42, 3, 7

file = sys.stdin.buffer.read()
first, end = 16 + file[16], 15 + int.from_bytes(file[11:15], "big")
sizes = {file[at]: int.from_bytes(file[at + 1 : at + 3], "big") for at in range(17, first, 3)}
newer = {code: size + MORE * (code != 0x3D) for code, size in sizes.items()} | {UNKNOWN: SIZE}
at = first
parts = [bytes([0x35, 3 * len(newer) + 1])] + [bytes([code]) + size.to_bytes(2, "big") for code, size in newer.items()]
while at < end:
    size = sizes[file[at]]
    parts += [file[at : at + 1 + size], b"\x07" * MORE, bytes([UNKNOWN]), b"\xff" * SIZE]
    at += 1 + size
start = len(newer) + 1
parts[start] = parts[start][:1] + bytes([3, 19, 7]) + parts[start][4:]
events = b"".join(parts)
sys.stdout.buffer.write(file[:11] + len(events).to_bytes(4, "big") + events + file[end:])
