"""Fields of the lines that a driver writes. A line outside the grammar ends the gateway's run, and all calls with it
(docs/formats.md), so each value is looked at before it becomes one. Needs Python 3.8 and nothing else.
"""

import ipaddress
import re

TEXT_MOST, DATAGRAM_MOST = 32_768, 4_352
NUMBER_MOST = 2**32 - 1
WINDOW_LEAST, WINDOW_MOST = 64, 1_024
SHARED_KEY_LEAST, SHARED_KEY_MOST = 16, 64
# The octets of a suite's key and salt (RFC 4568, 6.2; RFC 6188, 2), and those of a key by hand, with the form for tests.
CIPHERS = {"AES_CM_128": 30, "AES_192_CM": 38, "AES_256_CM": 46}
SUITES = {f"{cipher}_HMAC_SHA1_{tag}": length for cipher, length in CIPHERS.items() for tag in (80, 32)}
KEY_OCTETS = {"RAW80": 20, **SUITES}


class Refused(Exception):
    """The signal is refused, and nothing has changed. Its text is the gateway's cause, as `KeyReused 3`;
    docs/refusals.md says what each means. `TooLong` for a whole text and `Field` are the driver's own, since such a line
    would end the gateway's run, and so is `State` for a new call where it drains."""


class Unjoined(Refused):
    """A line `join` or `part` isn't obeyed, because of this call. Its text is the cause, as `Unready` or `Joined 3`."""

    def __init__(self, call, cause):
        super().__init__(cause)
        self.call = call


def require(holds, what):
    if not holds:
        raise Refused(f"Field: {what}")


def number(value, most=NUMBER_MOST, least=0):
    """A number as a field, in decimal digits."""
    fits = isinstance(value, int) and not isinstance(value, bool) and least <= value <= most
    require(fits, f"a number of {least} to {most} is needed: {value!r}")
    return str(value)


def call_number(call):
    """A call's number. The first and the last one are the driver's own."""
    return number(call, NUMBER_MOST - 1, 1)


def rollover(value):
    """A rollover counter as a field, of eight hexadecimal digits."""
    number(value)
    return f"{value:08x}"


def window(value):
    """A replay window as a field."""
    return number(value, WINDOW_MOST, WINDOW_LEAST)


def identity(name):
    """A name of a pre-shared key."""
    fits = isinstance(name, str) and re.fullmatch(r"[!-~]{1,128}", name)
    require(fits, f"an identity has 1 to 128 printing characters without a space: {name!r}")
    return name


def shared_key(octets):
    fits = SHARED_KEY_LEAST <= len(octets) <= SHARED_KEY_MOST
    require(fits, f"a pre-shared key has {SHARED_KEY_LEAST} to {SHARED_KEY_MOST} octets")
    return octets.hex()


def address(pair):
    """A pair of an IPv4 address and a port."""
    host, port = pair
    try:
        host = str(ipaddress.IPv4Address(host))
    except ValueError as fault:
        raise Refused(f"Field: {fault}") from fault
    return f"{host}:{number(port, 65_535)}"


def manual_key(key):
    """`SUITE:HEX`."""
    suite, _, digits = key.partition(":")
    fits = suite in KEY_OCTETS and re.fullmatch(r"[0-9a-f]*", digits) and len(digits) == 2 * KEY_OCTETS[suite]
    require(fits, f"a key is a suite of {', '.join(KEY_OCTETS)}, a colon, and its octets")
    return key


def octets_of(text):
    """A session description, as octets. A `str` is taken as UTF-8."""
    octets = text.encode() if isinstance(text, str) else bytes(memoryview(text))
    if len(octets) > TEXT_MOST:
        raise Refused("TooLong")
    return octets


def digits(octets):
    """Octets as a field."""
    return octets.hex() or "-"


def keys_of(text):
    """How many keys a text of the secure side brings at most: one for each in its crypto lines, and eight for each of
    four media where it has a MIKEY message."""
    return text.count(b"inline:") + 32 * (b"a=key-mgmt:" in text)
