"""The packets that the measures seal and open, and the writer of sealed packets of `interop/`."""

import sys
from pathlib import Path

sys.path.insert(0, str(Path(__file__).resolve().parent.parent / "interop"))

from srtp import MasterKey  # noqa: E402

__all__ = ["MasterKey", "SSRC", "packet"]

SSRC = 0xCAFEBABE


def packet(index, size):
    """The plain packet of an index: its head (RFC 3550, 5.1), whose time stamp goes on by 160 a packet,
    and octets that count up from the index."""
    head = b"\x80\x00" + (index % 2**16).to_bytes(2, "big")
    head += (index * 160 % 2**32).to_bytes(4, "big") + SSRC.to_bytes(4, "big")
    return head + bytes((place + index) % 256 for place in range(12, size))
