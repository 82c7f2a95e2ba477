"""A request of rtpengine's control protocol: its fields by name, and which of them the gateway can't do.

docs/kamailio.md has the table of the flags. What rtpengine does and the gateway can't is refused where a call would be
without media by it, and else let by, as rtpengine lets by what it doesn't know.
"""

import re

PROFILES = {b"RTP/AVP": "plain", b"RTP/AVPF": "plain", b"RTP/SAVP": "secure", b"RTP/SAVPF": "secure"}
IPV4 = re.compile(rb"(?:(?:25[0-5]|2[0-4][0-9]|1[0-9]{2}|[1-9]?[0-9])(?:\.(?!$)|$)){4}")


class Bad(Exception):
    """The request can't be obeyed; the text is what the SIP server is told."""


class Request:
    """The fields of a message, each of its type and empty where it isn't there."""

    def __init__(self, message):
        # Both spellings are rtpengine's: `received from` and `received-from`.
        self.fields = {key.replace(b" ", b"-"): value for key, value in message.items()}
        self.command = text_of(self.octets(b"command"))
        self.call_id, self.sdp = self.octets(b"call-id"), self.octets(b"sdp")
        self.from_tag, self.to_tag = self.octets(b"from-tag"), self.octets(b"to-tag")
        self.branch = self.octets(b"via-branch")
        self.transport = self.octets(b"transport-protocol")
        self.media_address = self.octets(b"media-address")
        self.flags, self.replace = self.words(b"flags"), self.words(b"replace")
        self.direction, self.received_from = self.items(b"direction"), self.items(b"received-from")

    def octets(self, key):
        value = self.fields.get(key, b"")
        if not isinstance(value, bytes):
            raise Bad(f"{text_of(key)} isn't a string")
        return value

    def items(self, key):
        """A list of strings. A string is a list of one."""
        value = self.fields.get(key, [])
        value = [value] if isinstance(value, bytes) else value
        if not isinstance(value, list) or not all(isinstance(item, bytes) for item in value):
            raise Bad(f"{text_of(key)} isn't a list of strings")
        return value

    def words(self, key):
        """A set of words in lower case, with hyphens in place of spaces."""
        return {word.replace(b" ", b"-").lower() for word in self.items(key)}

    def number(self, key, missing):
        value = self.fields.get(key, missing)
        if not isinstance(value, int):
            raise Bad(f"{text_of(key)} isn't a number")
        return value

    def needs(self, *keys):
        """Raises where a field isn't there, in rtpengine's words."""
        said = {"call_id": "call-id", "from_tag": "from-tag", "to_tag": "to-tag"}
        for key in keys:
            if not getattr(self, key):
                raise Bad("No SDP body in message" if key == "sdp" else f"No {said[key]} in message")

    def source(self):
        """The address that the message's own one is to be replaced by, or none: the flag SIP-source-address."""
        if b"sip-source-address" not in self.flags or b"trust-address" in self.flags or not self.received_from:
            return None
        if self.received_from[0] != b"IP4" or len(self.received_from) != 2 or not IPV4.fullmatch(self.received_from[1]):
            raise Bad("SIP-source-address: only IPv4 is supported, and received-from names none")
        return self.received_from[1]

    def check(self):
        """Raises where a flag of an offer or an answer asks for what the gateway doesn't have."""
        for fault in (self.transport_fault(), self.address_fault(), self.feature_fault()):
            if fault:
                raise Bad(fault)

    def transport_fault(self):
        if not self.transport or self.transport in PROFILES:
            return None
        asked = f"transport-protocol {text_of(self.transport)}"
        dtls = b"TLS" in self.transport
        return f"{asked}: {'DTLS is not supported, keys come by SDES or MIKEY' if dtls else 'not supported'}"

    def address_fault(self):
        if self.media_address and not IPV4.fullmatch(self.media_address):
            return f"media-address {text_of(self.media_address)}: only IPv4 addresses are supported"
        if self.octets(b"address-family") not in (b"", b"IP4"):
            return "address-family: only IP4 is supported"
        return None

    def feature_fault(self):
        if self.octets(b"ICE").startswith(b"force"):
            return "ICE=force: ICE is not supported; the gateway leaves it out of what it hands on"
        if b"require" in self.words(b"rtcp-mux"):
            return "rtcp-mux-require: the gateway doesn't offer that RTP and RTCP share a port"
        return None

    def rejects_mux(self):
        """Whether a telephone that offers that RTP and RTCP share a port is to have two."""
        return b"reject" in self.words(b"rtcp-mux")

    def suites(self):
        """Whether the name of a suite may be offered to the secure side, by the flags SDES-no-.. and SDES-only-.."""
        words = self.items(b"SDES")
        barred = {word[3:] for word in words if word.startswith(b"no-")}
        only = {word[5:] for word in words if word.startswith(b"only-")}
        return lambda suite: suite in only if only else suite not in barred

    def has_load_limit(self):
        """Whether the server knows the answer `load limit`, and asks another gateway then."""
        return b"load-limit" in self.words(b"supports")


def text_of(octets):
    """Octets for a log or an error: what doesn't print is `?`, and it isn't long."""
    told = octets[:128].decode("utf-8", "replace")
    return "".join(letter if letter.isprintable() else "?" for letter in told)
