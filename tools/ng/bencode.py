"""bencode (BEP 3), as rtpengine's control protocol has it: numbers, strings of octets, lists and dictionaries.

    encoded({"result": "ok"})              # b"d6:result2:oke"
    decoded(b"d7:command4:pinge")          # {b"command": b"ping"}

Any octets may come: `decoded` answers the value or raises `Bad`, keeps no more than the octets hold, and calls itself
for nothing that lies within another, so no nesting ends it. Keys may stand in any order, as Kamailio writes them.
"""

import re

NUMBER = re.compile(rb"i(0|-?[1-9][0-9]{0,18})e")
LENGTH = re.compile(rb"(0|[1-9][0-9]{0,9}):")
NESTED_MOST = 32


class Bad(Exception):
    """The octets are no bencoded value."""


def encoded(value):
    """The octets of a value. A `str` is taken as UTF-8, with octets that are none as `surrogateescape` keeps them."""
    if isinstance(value, int):
        return b"i%de" % value
    if isinstance(value, (bytes, str)):
        octets = octets_of(value)
        return b"%d:%b" % (len(octets), octets)
    if isinstance(value, dict):
        pairs = sorted((octets_of(key), held) for key, held in value.items())
        return b"d" + b"".join(encoded(key) + encoded(held) for key, held in pairs) + b"e"
    return b"l" + b"".join(map(encoded, value)) + b"e"


def octets_of(text):
    return text.encode("utf-8", "surrogateescape") if isinstance(text, str) else text


def decoded(octets):
    """The value of the octets, whole: numbers, `bytes`, lists, and dictionaries whose keys are `bytes`."""
    value, end = read(octets)
    if end != len(octets):
        raise Bad(f"octets behind the value's end, at {end}")
    return value


def read(octets):
    """The value that begins the octets, and where it ends."""
    open_ones, place = [], 0
    while True:
        letter = octets[place:place + 1]
        if letter in (b"l", b"d"):
            if len(open_ones) == NESTED_MOST:
                raise Bad(f"nested more than {NESTED_MOST} deep, at {place}")
            open_ones.append((letter, []))
            place += 1
            continue
        if letter == b"e" and open_ones:
            value, place = whole(*open_ones.pop(), place), place + 1
        else:
            value, place = simple(octets, place)
        if not open_ones:
            return value, place
        open_ones[-1][1].append(value)


def simple(octets, place):
    """The number or the string at a place, and where it ends."""
    number = NUMBER.match(octets, place)
    if number:
        return int(number[1]), number.end()
    length = LENGTH.match(octets, place)
    if not length:
        raise Bad(f"no value at {place}")
    end = length.end() + int(length[1])
    if end > len(octets):
        raise Bad(f"a string that is longer than what came, at {place}")
    return octets[length.end():end], end


def whole(letter, items, place):
    """The list or the dictionary of what stood in it."""
    if letter == b"l":
        return items
    keys, values = items[::2], items[1::2]
    if len(keys) != len(values):
        raise Bad(f"a key without a value, before {place}")
    if not all(isinstance(key, bytes) for key in keys):
        raise Bad(f"a key that is no string, before {place}")
    if len(set(keys)) != len(keys):
        raise Bad(f"a key twice, before {place}")
    return dict(zip(keys, values))
