"""Rows of the policies of MIKEY messages: suites, marks, and values that aren't served."""
from messages import ENDED, live_by, offer_by
from mikey import DEFAULTS
from signals import CM, CM256, CM32, NOW, Script, master, peers_exchange, psk
from srtp import rtcp, rtp

# Types of a policy (RFC 3830, 6.10.1).
KEY_LENGTH, RTP_ENCRYPTED, RTCP_ENCRYPTED, TAG_LENGTH = 1, 7, 8, 11
# The values of the other types that are served, of which those above 0 are told in bits too where they are lengths.
SERVED = [(0, 1), (2, 1), (3, 20), (4, 14), (5, 0), (6, 0), (9, 0), (10, 1), (12, 0)]
IN_BITS = [(kind, 8 * value if kind in (3, 4) else value) for kind, value in SERVED]


def began():
    s = Script()
    s.says(psk())
    s.tick(NOW)
    return s


def live_under(s, number, items, suite=CM, encrypts=(True, True)):
    """A call under a policy: a packet each way on each port, of RTP and RTCP encrypted or not; and its end."""
    exchange = peers_exchange(number, policies=[(0, items)])
    live_by(s, exchange)
    octets = {"128": 16, "192": 24, "256": 32}[suite.replace("AES_CM_", "AES_").split("_")[1]]
    (theirs,), (own,) = exchange.sessions(octets)
    of_rtp, of_rtcp = encrypts
    s.opened(20000, master(theirs, suite), rtp(7), 7, encrypts=of_rtp)
    s.sealed(20002, master(own, suite), rtp(7), 7, encrypts=of_rtp)
    s.rtcp_opened(20001, master(theirs, suite), rtcp(), 0, encrypts=of_rtcp)
    s.rtcp_sealed(20003, master(own, suite), rtcp(), 0, encrypts=of_rtcp)
    s.says("bye 9", ENDED)


def suites_of_policies():
    """Each suite that a policy can name, its lengths in octets and in bits, in one octet and in more; and the rest of
    what is served."""
    s = began()
    numbers = iter(range(1, 999))
    single = lambda pairs: [(kind, bytes([value])) for kind, value in pairs]
    for tag in (10, 4):
        of = lambda name: f"{name}_HMAC_SHA1_{8 * tag}"
        live_under(s, next(numbers), single([(KEY_LENGTH, 16), (TAG_LENGTH, tag)]), of("AES_CM_128"))
        live_under(s, next(numbers), single([(KEY_LENGTH, 192), (TAG_LENGTH, 8 * tag)]), of("AES_192_CM"))
        bits = [(TAG_LENGTH, (8 * tag).to_bytes(4, "big")), (KEY_LENGTH, (256).to_bytes(2, "big"))]
        live_under(s, next(numbers), bits, of("AES_256_CM"))
    live_under(s, next(numbers), single([(TAG_LENGTH, 4)]), CM32)
    live_under(s, next(numbers), single([(KEY_LENGTH, 32)]), CM256)
    live_under(s, next(numbers), [])
    live_under(s, next(numbers), single(SERVED))
    live_under(s, next(numbers), single(IN_BITS))
    live_under(s, next(numbers), [(kind, value.to_bytes(4, "big")) for kind, value in IN_BITS])
    return s


def marks_of_a_policy():
    """A policy marks RTP and RTCP each by itself, as encrypted or not, in both directions."""
    s = began()
    numbers = iter(range(1, 99))
    for of_rtp in (False, True):
        for of_rtcp in (False, True):
            items = [(RTP_ENCRYPTED, bytes([of_rtp])), (RTCP_ENCRYPTED, bytes([of_rtcp]))]
            live_under(s, next(numbers), items, encrypts=(of_rtp, of_rtcp))
    live_under(s, next(numbers), [(RTP_ENCRYPTED, b"\0")], encrypts=(False, True))
    live_under(s, next(numbers), [(RTCP_ENCRYPTED, b"\0")], encrypts=(True, False))
    return s


def values_of_policies():
    """Of each type values beside those that are served, in octets and in bits; lengths of values; a type twice."""
    s = began()
    beside = {
        0: (0, 2, 8), 1: (0, 15, 17, 25, 33, 129, 135, 136, 144, 200, 264), 2: (0, 2, 8), 3: (19, 21, 161, 168),
        4: (13, 15, 113, 120), 5: (1, 8), 6: (1, 8), 7: (2, 8), 8: (2, 8), 9: (1, 8), 10: (0, 2, 8),
        11: (3, 5, 9, 11, 33, 40, 81, 88), 12: (1, 8), 13: (0, 1),
    }
    policies = [[(kind, value.to_bytes(1 + (value > 255), "big"))] for kind in beside for value in beside[kind]]
    policies += [[(kind, octets)] for kind in (1, 6) for octets in (b"", bytes(4) + b"\x10")]
    policies += [DEFAULTS + DEFAULTS[:1], [(1, b"\x10"), (1, b"\x10")], [(12, b"\0"), (7, b"\1"), (12, b"\0")]]
    for number, items in enumerate(policies):
        s.refused(offer_by(peers_exchange(number, policies=[(0, list(items))]), None), "Cs 255 PolicyValue")
    return s


ALL = (suites_of_policies, marks_of_a_policy, values_of_policies)
