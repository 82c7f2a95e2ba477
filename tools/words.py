"""The words of a tool: what is wrong with them is told in one line on standard error, and the status is 2.

    given = words.Parser(description="..")
    given.add_argument("--step", type=words.seconds(0.001, 1.0))

Needs Python 3.8 alone.
"""

import argparse
import ipaddress
import math
import urllib.parse
from pathlib import Path


class Parser(argparse.ArgumentParser):
    """One that tells no usage at a fault, since that is what `--help` is for."""

    def error(self, message):
        self.exit(2, f"{self.prog}: {message}\n")


def require(holds, what):
    if not holds:
        raise argparse.ArgumentTypeError(what)


def seconds(least, most):
    """A number of seconds, both bounds within."""
    def read(text):
        try:
            value = float(text)
        except ValueError:
            value = math.nan
        require(least <= value <= most, f"{text!r} is no number of seconds from {least:g} to {most:g}")
        return value
    return read


def number(least, most):
    """A whole number in decimal digits, both bounds within."""
    def read(text):
        value = int(text) if text.isascii() and text.isdigit() else None
        require(value is not None and least <= value <= most, f"{text!r} is no number from {least} to {most}")
        return value
    return read


def host(text):
    """An IPv4 address, as octets."""
    try:
        return str(ipaddress.IPv4Address(text)).encode()
    except ValueError:
        raise argparse.ArgumentTypeError(f"{text!r} is no IPv4 address") from None


def address(text):
    """A pair of a host, by its address or its name, and a port. The loopback's where only a port is given."""
    name, _, port = text.rpartition(":")
    return name or "127.0.0.1", number(1, 65_535)(port)


def url(text):
    """One of HTTP."""
    try:
        parts = urllib.parse.urlsplit(text)
        fits = parts.scheme in ("http", "https") and parts.hostname and parts.port != 0
    except ValueError:
        fits = False
    require(fits, f"{text!r} is no URL of HTTP")
    return text


def file_in_a_folder(text):
    """The path of a file that can be made: its folder is there."""
    require(Path(text).parent.is_dir() and not Path(text).is_dir(), f"{text!r} is no file in a folder that is there")
    return text
