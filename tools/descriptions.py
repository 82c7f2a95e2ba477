"""Session descriptions, as far as a server has to look into them: which offers within a call needn't come to the
gateway, and what such a text becomes for the other side.

All texts are octets, as they came: a line may hold octets that are no UTF-8. Needs Python 3.8 and nothing else.
"""

# The gateway's own address (docs/formats.md, "Ports").
HOME = b"127.0.0.1"
KEYS = (b"a=crypto", b"a=key-mgmt")
# The line by which RTP and RTCP share a medium's port (RFC 5761).
MUX = b"a=rtcp-mux"
# What would lead media past the gateway isn't handed on (docs/driving.md).
LEFT_OUT = {
    b"crypto", b"key-mgmt", b"rtcp", b"rtcp-mux", b"candidate", b"end-of-candidates", b"remote-candidates", b"ice-ufrag",
    b"ice-pwd", b"ice-options", b"ice-lite", b"fingerprint", b"setup",
}


def parts(text):
    """The session part and the media of a text, each a list of lines without their ends."""
    found = [[]]
    for line in text.splitlines():
        if line.startswith(b"m="):
            found.append([])
        found[-1].append(line)
    return found


def looked_at(text, muxes=False):
    """What the gateway looks at in a text: ports, profiles, addresses and keys, in their order, and where it `muxes`
    whether RTP and RTCP share a port. Two texts of one side for which it is the same are one to the gateway: the second
    is handed on by `carried`."""
    lines = (line for part in parts(text) for line in part)
    lines = (line for line in lines if line.startswith((b"m=", b"c=", *KEYS)) or muxes and line == MUX)
    return [line.split(b" ")[:3] if line.startswith(b"m=") else line for line in lines]


def carried(text, given, host=HOME):
    """A text for the other side, past the gateway: its lines, with the ports, profiles and keys of `given`, which is the
    text that the gateway gave that side before, with its lines for one port, and with `host` as the address."""
    told = []
    for part, ours in zip(parts(text), parts(given)):
        for line in part:
            if line.startswith(b"m="):
                line = b" ".join([line.split(b" ")[0], *ours[0].split(b" ")[1:3], *line.split(b" ")[3:]])
            if not line.startswith(b"a=") or line[2:].split(b":")[0] not in LEFT_OUT:
                told.append(b"c=IN IP4 " + host if line.startswith(b"c=") else line)
        told += [line for line in ours if line.startswith(KEYS) or line == MUX]
    return b"".join(line + b"\r\n" for line in told)
