"""Tells systemd that the daemon is ready, and what it does: a datagram to the socket that NOTIFY_SOCKET names
(sd_notify(3)). Without that name nothing is told."""

import contextlib
import os
import socket


def tell(**said):
    """Lines as READY=1, STATUS=.. ."""
    path = os.environ.get("NOTIFY_SOCKET", "")
    if not path.startswith(("/", "@")):
        return
    octets = "".join(f"{name}={value}\n" for name, value in said.items()).encode()
    # Who can't be told ends no call.
    with contextlib.suppress(OSError), socket.socket(socket.AF_UNIX, socket.SOCK_DGRAM | socket.SOCK_CLOEXEC) as end:
        end.sendto(octets, "\0" + path[1:] if path.startswith("@") else path)
