"""A network of a check's own, with nothing but a loopback, so that no other program has its ports."""
import ctypes
import fcntl
import os
import socket
import struct


def makes_own_loopback():
    """Moves this process and those that it starts to a network that has nothing but a loopback."""
    new_user, new_net, set_flags, up = 0x10000000, 0x40000000, 0x8914, 1
    unshare = ctypes.CDLL(None).unshare
    if unshare(new_net) != 0 and unshare(new_user | new_net) != 0:
        raise OSError("no network of its own")
    with socket.socket(socket.AF_INET, socket.SOCK_DGRAM) as one:
        fcntl.ioctl(one, set_flags, struct.pack("16sh14x", b"lo", up))
        one.bind(("127.0.0.1", 0))
        one.sendto(b"", one.getsockname())


def has_own_loopback():
    """Makes one where the system lets it, which another process tries first."""
    child = os.fork()
    if child == 0:
        try:
            makes_own_loopback()
        except OSError:
            os._exit(1)
        os._exit(0)
    if os.waitpid(child, 0)[1] != 0:
        return False
    makes_own_loopback()
    return True
