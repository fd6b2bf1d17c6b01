"""Reads lines of a map's body in hexadecimal, a space, and the map as JSON; Python's ubjson must read each body as that map, in the same order. A line
`sound HEX` is a whole map that must be read to its end, `not HEX` one that must not."""
import io
import json
import sys

import ubjson


def is_map(document):
    """Whether one map is read, to the end of the bytes."""
    stream = io.BytesIO(document)
    try:
        return isinstance(ubjson.load(stream), dict) and stream.read() == b""
    except ubjson.DecoderException:
        return False


lines = tails = 0
for line in sys.stdin:
    body, _, text = line.rstrip("\n").partition(" ")
    if body in ("sound", "not"):
        if is_map(bytes.fromhex(text)) != (body == "sound"):
            sys.exit(f"foreign: ubjson does not find {text} {body}")
        tails += 1
        continue
    read = json.dumps(ubjson.loadb(b"{" + bytes.fromhex(body) + b"}"))
    meant = json.dumps(json.loads(text))
    if read != meant:
        sys.exit(f"foreign: ubjson reads {read} for {meant}")
    lines += 1
print(f"foreign: {lines} maps read by ubjson, {tails} tails judged alike")
sys.exit(0 if lines and tails else 1)
