"""The calls, the ring of keys and the books, and what each signal and each datagram makes of them."""
import base64
import struct

import mikey
from srtp import RTCP, RTP, MasterKey

from . import crypto, messages
from .sessions import FIRST_SEEN, Drop, Key, Session
from .texts import EXCHANGED, Description, Refused, printed

IDLE_AFTER, KEPT_FOR = 60_000, 2_000
CM, CM256 = "AES_CM_128_HMAC_SHA1_80", "AES_256_CM_HMAC_SHA1_80"
MIKEY_LINE = b"a=key-mgmt:mikey"


def ports_of(slot, medium):
    """Secure RTP, secure RTCP, plain RTP, plain RTCP."""
    first = 20000 + 16 * slot + 4 * medium
    return first, first + 1, first + 2, first + 3


class Ring:
    """Each key that came into use, by what no other may have in common with it."""

    def __init__(self):
        self.count, self.numbers = 0, {}

    @staticmethod
    def marks(master):
        if master.is_raw:
            return [("master", master.key)], False
        rtp, rtcp = (master.derived(kind, len(master.key)) for kind in (RTP, RTCP))
        return [("master", master.key), ("cipher", rtp), ("cipher", rtcp)], rtp == rtcp

    def install(self, masters):
        """The number of the first of the keys; all or none are taken."""
        added, count = {}, self.count
        for master in masters:
            marks, is_twice = self.marks(master)
            known = [added.get(mark, self.numbers.get(mark)) for mark in marks]
            before = [number for number in known if number is not None] + [count] * is_twice
            if before:
                raise Refused(f"KeyReused {min(before)}")
            added.update(dict.fromkeys(marks, count))
            count += 1
        if count > 65_536:
            raise Refused("RingFull")
        first, self.count = self.count, count
        self.numbers.update(added)
        return first


class Path:
    """The sessions of a medium in one generation, with its two addresses."""

    def __init__(self, secure, plain, opening, sealing):
        self.secure, self.plain, self.sessions = secure, plain, {}
        kinds = [RTP, RTCP]
        if opening["keys"][0].master.is_raw or 65535 in (secure[1], plain[1]):
            kinds = [RTP]
        for kind in kinds:
            marked = "plain_rtp" if kind == RTP else "plain_rtcp"
            for way, given in (("open", opening), ("seal", sealing)):
                self.sessions[way, kind] = Session(
                    kind, given["keys"], given["rollover"], given["window"], given["admits"], not given[marked]
                )


def side(keys, rollover=0, window=1024, admits=None, plain_rtp=False, plain_rtcp=False):
    return {
        "keys": keys, "rollover": rollover, "window": window, "admits": admits, "plain_rtp": plain_rtp,
        "plain_rtcp": plain_rtcp,
    }


class Offer:
    """An open offer: the text, the side that it came from, how it is keyed, and what was kept for the answer."""

    def __init__(self, description, way, keyed):
        self.description, self.way, self.keyed = description, way, keyed


class Call:
    def __init__(self, number, slot, media):
        self.number, self.slot, self.media = number, slot, media
        self.is_manual, self.offer, self.moment = False, None, 0
        self.paths = self.earlier = None
        self.replaced = 0

    def ended(self, why):
        return f"ended {self.number} {self.slot} {self.media} {why}"

    def renew(self, paths, now):
        self.earlier, self.replaced = self.paths, now
        self.paths, self.offer = paths, None


def mikey_lines(lines):
    return [line for line in lines if line == MIKEY_LINE or line.startswith(MIKEY_LINE + b" ")]


def message_of(lines, medium, kind):
    """The message of the first MIKEY line, read whole and of the kind of the exchange."""
    found = mikey_lines(lines)
    octets = crypto.decoded(found[0][len(MIKEY_LINE) + 1:].decode("latin-1")) if found else None
    if octets is None or b" " not in found[0]:
        raise Refused(f"KeyMgmt {medium}")
    try:
        message = messages.Message(octets)
        if message.kind != kind:
            raise messages.Fault(1, "DataType")
    except messages.Fault as fault:
        raise Refused(f"Mikey {medium} {fault}") from None
    return message


def key_line(octets):
    return MIKEY_LINE + b" " + base64.b64encode(octets)


def of_medium(medium, refused):
    kind, cause = refused.args
    return Refused(f"{kind} {medium} {cause}")


class World:
    def __init__(self):
        self.slots, self.ring, self.pairs, self.noted, self.now = {}, Ring(), [], [], 0

    def call(self, number):
        return next((call for call in self.slots.values() if call.number == number), None)

    # ---- signals

    def signal(self, word, *values):
        """The outcomes of a signal."""
        try:
            return getattr(self, "take_" + word.replace("-", "_"))(*values)
        except Refused as refused:
            number = "-" if word in ("tick", "psk") else values[0]
            return [f"refused {number} {refused}"]

    def take_tick(self, now):
        if now < self.now:
            raise Refused(f"TickBack {self.now}")
        self.now = now
        idle = [call for _, call in sorted(self.slots.items()) if now - call.moment >= IDLE_AFTER]
        for call in idle:
            del self.slots[call.slot]
        for call in self.slots.values():
            if call.earlier is not None and now - call.replaced >= KEPT_FOR:
                call.earlier = None
        return [call.ended("idle") for call in idle]

    def take_psk(self, own, peer, shared):
        if (own, peer) in [pair[:2] for pair in self.pairs]:
            raise Refused("PskKnown")
        if len(self.pairs) == 64:
            raise Refused("PskFull")
        self.pairs.append((own, peer, shared))
        return []

    def new_call(self, number, media):
        slot = min(set(range(256)) - set(self.slots))
        return Call(number, slot, media)

    def take_manual(self, number, secure, plain, rollover, window, from_peer, to_peer):
        if self.call(number):
            raise Refused("CallKnown")
        if len(self.slots) == 256:
            raise Refused("TableFull")
        first = self.ring.install([from_peer, to_peer])
        call = self.new_call(number, 1)
        opening, sealing = Key(first, from_peer, 2**48, b""), Key(first + 1, to_peer, 2**48, b"")
        call.paths = {0: Path(secure, plain, side([opening], rollover, window), side([sealing], rollover))}
        call.is_manual, call.moment = True, self.now
        self.slots[call.slot] = call
        return [f"made {number} {call.slot} 1", f"live {number}"]

    def take_offer_secure(self, number, noise, text):
        return self.offered(number, "secure", text, lambda description, _: self.secure_offer(description))

    def take_sdes(self, number, noise, text):
        return self.offered(number, "plain", text, lambda description, parts: self.sdes_offer(description, parts, noise))

    def take_mikey(self, number, peer, noise, text):
        return self.offered(
            number, "plain", text, lambda description, parts: self.mikey_offer(description, parts, peer, noise)
        )

    def offered(self, number, way, text, keyed_by):
        call = self.call(number)
        if not call and len(self.slots) == 256:
            raise Refused("TableFull")
        if call and (call.is_manual or call.offer):
            raise Refused("State")
        description = Description(text, way)
        if True not in description.active():
            raise Refused("NoMedia")
        if call and len(description.media) != call.media:
            raise Refused("MediaCount")
        is_new = call is None
        call = call or self.new_call(number, len(description.media))
        profiles = [EXCHANGED[medium.profile] for medium in description.media]
        parts = description.carried(self.ports(call, way, description.active()), profiles)
        call.offer = Offer(description, way, keyed_by(description, parts))
        self.slots[call.slot], call.moment = call, self.now
        made = [f"made {number} {call.slot} {call.media}"] if is_new else []
        other = "plain" if way == "secure" else "secure"
        return made + [f"sdp {number} {other} {printed(parts).hex()}"]

    @staticmethod
    def ports(call, way, active):
        """The gateway's RTP ports that the other side of a text is told."""
        towards = 2 if way == "secure" else 0
        return [ports_of(call.slot, medium)[towards] if on else 0 for medium, on in enumerate(active)]

    def secure_offer(self, description):
        """Keys of an offer of the secure side: by medium a chosen crypto line or an exchange, and the level."""
        active = [medium for medium, on in enumerate(description.active()) if on]
        lines = [medium.lines for medium in description.media]
        if not any(mikey_lines(part) for part in [description.session] + lines):
            return "sdes", {medium: self.chosen(medium, lines[medium]) for medium in active}
        if mikey_lines(description.session):
            exchange = self.initial(description.session, 255, len(active))
            exchanges = [exchange]
            keyed = "session", exchange, active
        else:
            exchanges = {medium: self.initial(lines[medium], medium, 1) for medium in active}
            keyed = "media", exchanges, active
            exchanges = exchanges.values()
        for exchange in exchanges:
            noted = exchange.peer, exchange.csb, exchange.stamp
            if noted not in self.noted:
                self.noted.append(noted)
        return keyed

    @staticmethod
    def chosen(medium, lines):
        try:
            return crypto.chosen(lines)
        except crypto.Bad as fault:
            raise Refused(f"Sdes {medium} {fault}") from None

    def initial(self, lines, medium, media):
        message = message_of(lines, medium, 0)
        try:
            exchange = messages.accepted(message, self.pairs, self.noted, self.now)
            exchange.check(media)
        except messages.Refused as refused:
            raise of_medium(medium, refused) from None
        return exchange

    @staticmethod
    def own_lines(noise, medium):
        drawn = noise[76 * medium:76 * medium + 76]
        return {1: MasterKey(CM, drawn[:30]), 2: MasterKey(CM256, drawn[30:])}

    def sdes_offer(self, description, parts, noise):
        own = {}
        for medium, on in enumerate(description.active()):
            if on:
                own[medium] = self.own_lines(noise, medium)
                parts[1 + medium] += [crypto.printed(tag, master) for tag, master in own[medium].items()]
        return "own sdes", own

    def mikey_offer(self, description, parts, peer, noise):
        pairs = [pair for pair in self.pairs if pair[1] == peer]
        if not pairs:
            raise Refused("Psk 255 IdUnknown")
        own, _, shared = pairs[0]
        active = [medium for medium, on in enumerate(description.active()) if on]
        entries = []
        for medium in active:
            entries += [(0, description.media[medium].ssrc(), 0), (0, 0, 0)]
        writer = mikey.Exchange(
            shared, self.now, [(noise[20:36], None)], entries, [(0, mikey.DEFAULTS)], [own, peer],
            csb=struct.unpack(">I", noise[16:20])[0], random=noise[:16],
        )
        parts[0].append(key_line(writer.initial()))
        exchange = messages.Exchange(
            writer.csb, writer.random, writer.stamp, own, peer, shared, writer.keys, entries, writer.policies
        )
        return "own mikey", exchange, active

    def take_answer(self, number, noise, text):
        call = self.call(number)
        if not call:
            raise Refused("CallUnknown")
        if not call.offer:
            raise Refused("State")
        offer = call.offer
        description = Description(text, "plain" if offer.way == "secure" else "secure")
        if True not in description.active():
            raise Refused("NoMedia")
        if len(description.media) != call.media:
            raise Refused("MediaCount")
        was = offer.description
        on = [medium for medium, both in enumerate(zip(was.active(), description.active())) if all(both)]
        flags = [medium in on for medium in range(call.media)]
        ports = self.ports(call, description.side, flags)
        parts = description.carried(ports, [medium.profile for medium in was.media])
        answered = {
            "sdes": self.answered_sdes, "own sdes": self.answered_own_sdes, "session": self.answered_session,
            "media": self.answered_media, "own mikey": self.answered_own_mikey,
        }[offer.keyed[0]]
        legs = answered(offer, description, parts, noise, on)
        masters = [master for leg in legs.values() for keys in leg["keys"] for master, _, _ in keys]
        first = self.ring.install(masters)
        paths = {}
        for medium, leg in legs.items():
            sides = []
            for keys, given in zip(leg["keys"], (leg["opening"], leg["sealing"])):
                numbered = [Key(first + place, *key) for place, key in enumerate(keys)]
                first += len(keys)
                sides.append(side(numbered, **given))
            both = was.media[medium], description.media[medium]
            secure, plain = both if offer.way == "secure" else both[::-1]
            paths[medium] = Path((secure.address, secure.port), (plain.address, plain.port), *sides)
        call.renew(paths, self.now)
        call.moment = self.now
        return [f"sdp {number} {offer.way} {printed(parts).hex()}", f"live {number}"]

    def answered_sdes(self, offer, description, parts, noise, on):
        legs = {}
        for medium in on:
            line = offer.keyed[1][medium]
            drawn = noise[76 * medium:]
            own = MasterKey(line.suite, drawn[:len(line.keys[0][0].octets)])
            parts[1 + medium].append(crypto.printed(line.tag, own, line.plain_rtp, line.plain_rtcp))
            legs[medium] = by_lines(line, own)
        return legs

    def answered_own_sdes(self, offer, description, parts, noise, on):
        legs = {}
        for medium in on:
            own = offer.keyed[1][medium]
            try:
                line = crypto.answered(description.media[medium].lines, {tag: own[tag].suite for tag in own})
            except crypto.Bad as fault:
                raise Refused(f"Sdes {medium} {fault}") from None
            legs[medium] = by_lines(line, own[line.tag])
        return legs

    def answered_session(self, offer, description, parts, noise, on):
        _, exchange, active = offer.keyed
        ssrcs = [description.media[medium].ssrc() for medium in active]
        parts[0].append(response(exchange, ssrcs))
        return {
            medium: as_responder(exchange, place, ssrcs[place])
            for place, medium in enumerate(active) if medium in on
        }

    def answered_media(self, offer, description, parts, noise, on):
        _, exchanges, _ = offer.keyed
        legs = {}
        for medium in on:
            ssrc = description.media[medium].ssrc()
            parts[1 + medium].append(response(exchanges[medium], [ssrc]))
            legs[medium] = as_responder(exchanges[medium], 0, ssrc)
        return legs

    def answered_own_mikey(self, offer, description, parts, noise, on):
        _, exchange, active = offer.keyed
        message = message_of(description.session, 255, 1)
        try:
            entries = messages.answered(message, exchange)
        except messages.Refused as refused:
            raise of_medium(255, refused) from None
        legs = {}
        for place, medium in enumerate(active):
            if medium in on:
                theirs, own = exchange.session(2 * place + 1), exchange.session(2 * place)
                legs[medium] = by_exchange(theirs, own, entries[2 * place + 1], exchange.entries[2 * place][1])
        return legs

    def take_reject(self, number):
        call = self.call(number)
        if not call:
            raise Refused("CallUnknown")
        if not call.offer:
            raise Refused("State")
        if call.paths is None:
            del self.slots[call.slot]
            return [call.ended("rejected")]
        call.offer, call.moment = None, self.now
        return []

    def take_bye(self, number):
        call = self.call(number)
        if not call:
            raise Refused("CallUnknown")
        del self.slots[call.slot]
        return [call.ended("bye")]

    # ---- datagrams

    def datagram(self, port, source, octets):
        """The outcome of a datagram."""
        try:
            return self.put_out(port, source, octets)
        except Drop as cause:
            return f"drop {port} {cause}"

    def put_out(self, port, source, octets):
        slot, medium, place = (port - 20000) // 16, (port - 20000) // 4 % 4, (port - 20000) % 4
        call = self.slots.get(slot)
        if not call or medium >= call.media:
            raise Drop("PortUnused")
        if call.paths is None:
            raise Drop("NotLive")
        way, kind = ("open", "seal")[place // 2], (RTP, RTCP)[place % 2]
        generations = [call.paths] + [call.earlier] * (way == "open" and call.earlier is not None)
        paths = [paths[medium] for paths in generations if medium in paths and (way, kind) in paths[medium].sessions]
        if not paths:
            raise Drop("PortUnused")
        if len(octets) > (4238 if way == "open" else 4096):
            raise Drop("TooLong")
        if way == "seal":
            if source[0] != paths[0].plain[0]:
                raise Drop("SourceUnknown")
            (host, to), datagram = paths[0].secure, paths[0].sessions[way, kind].sealed(octets)
            out = port - 2
        else:
            (host, to), datagram = opened_first(paths, kind, octets)
            out = port + 2
        call.moment = self.now
        return f"out {out} {host}:{to + place % 2} {datagram.hex() or '-'}"


def opened_first(paths, kind, octets):
    """What the first session opens, or else the next; where none does, the cause of the first."""
    causes = []
    for path in paths:
        try:
            return path.plain, path.sessions["open", kind].opened(octets)
        except Drop as cause:
            causes.append(cause)
    raise causes[0]


def by_lines(line, own):
    """A medium that is keyed by the peer's crypto line and the gateway's key."""
    marks = {"plain_rtp": line.plain_rtp, "plain_rtcp": line.plain_rtcp}
    return {
        "keys": (line.keys, [(own, 2**48, b"")]), "opening": {"window": line.window, **marks}, "sealing": marks,
    }


def by_exchange(theirs, own, entry, ssrc):
    """A medium that is keyed by crypto sessions: the peer's with its entry, and the gateway's with its own source."""
    (keys, *marks), (own_keys, *own_marks) = theirs, own
    names = "plain_rtp", "plain_rtcp"
    return {
        "keys": (keys, own_keys),
        "opening": {"window": 64, "rollover": entry[2], "admits": entry[1] or FIRST_SEEN, **dict(zip(names, marks))},
        "sealing": {"admits": ssrc or FIRST_SEEN, **dict(zip(names, own_marks))},
    }


def as_responder(exchange, place, ssrc):
    theirs, own = exchange.session(2 * place), exchange.session(2 * place + 1)
    return by_exchange(theirs, own, exchange.entries[2 * place], ssrc)


def response(exchange, ssrcs):
    """The line of the gateway's response."""
    writer = mikey.Exchange(exchange.shared, 0, [], [], [], [exchange.peer], exchange.csb, exchange.random)
    writer.stamp = exchange.stamp
    return key_line(writer.response(exchange.own, mikey.answered(exchange.entries, ssrcs)))
