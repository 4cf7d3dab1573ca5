#!/usr/bin/env python3
"""strings.py    copies lines of JSON, with others in the place of those characters of strings that `capnp convert` reads
wrongly: brackets and quotes, which it counts where it looks for an object's end, and escapes whose digits are letters.
"""
import re
import sys

STRING = re.compile(r'"((?:[^"\\]|\\.)*)"')


def plain(match):
    text = re.sub(r"""[][(){}'#]|\\["\\]""", "_", match.group(1))
    return '"' + re.sub(r"\\u00[01][a-f]", r"\\u0001", text) + '"'


for line in sys.stdin:
    sys.stdout.write(STRING.sub(plain, line))
