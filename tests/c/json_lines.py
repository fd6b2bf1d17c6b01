#!/usr/bin/env python3
"""A JSON value a line, read and printed again, as `jq -ca .` prints it. No line may have a character in it that draws nothing."""
import json
import sys
import unicodedata

for line in sys.stdin.buffer:
    text = line.decode("utf-8")
    assert text.endswith("\n")
    for character in text[:-1]:
        assert unicodedata.category(character) not in ("Cc", "Cf", "Zl", "Zp", "Cs"), ascii(character)
    print(json.dumps(json.loads(text), separators=(",", ":")))
