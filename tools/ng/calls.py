"""The calls that a SIP server names by Call-ID and tags, over the gateway's own numbers (legs.py).

A `Book` obeys offers, answers and deletions as rtpengine's control protocol has them: an offer may come again, may be
made within a call, or in place of one that was never answered; an answer may come again with another provisional
response; a call may have branches, each of them a call of the gateway's own. An offer within a call that changes
nothing which the gateway looks at goes past it (tools/descriptions.py).
"""

import collections
import functools
import itertools
import threading
import time

from descriptions import carried, parts
from driver import Refused
from gateway import Gone
from ng.legs import FAR, Full, Pair, Single
from ng.request import Bad, PROFILES, text_of
from ng.texts import (
    NOWHERE, addressed, addresses, answering, has_keys, holds, is_quiet, profile, profiled, profiles, secured, seen, shown,
    unmuxed, without_suites,
)

KINDS = ("RTP", "RTCP")
# Causes of a refused offer for which another gateway may take the call; of a new call `State` says that it drains.
FULL = ("TableFull", "State")
# The gateway ends a call of which nothing was put out for a minute. One that is held is kept from it by a sign of life
# each `SIGN` seconds, for so many seconds if nothing else is said.
SIGN, HOLD = 45.0, 3_600.0
DRAINING = "this gateway takes no new calls, and ends with its last one"

# An open offer: who made it, its text and the gateway's for the other side, whether it went past the gateway, whether
# it holds by naming no address, and whether it holds at all.
Offer = collections.namedtuple("Offer", "side tag text given passes nowhere quiet")
# A call with its drops by port and cause, its packets and octets by port, and what was lost between two that are joined.
Report = collections.namedtuple("Report", "call dropped arrived lost")


class Call:
    """One call of the SIP server's, which `legs` has at the gateway. `tags` has the side of each SIP tag; `said` a side's
    last accepted text, `given` the gateway's last one for it, `wears` the profiles that its texts have, `interface` the name
    of its interface."""

    def __init__(self, legs, request):
        self.legs, self.id, self.branch = legs, request.call_id, request.branch
        self.tags, self.said, self.given, self.wears, self.interface = {}, {}, {}, {}, {}
        self.open, self.live = None, False
        self.made = self.told = time.time()
        # Since when it is held, and when the gateway last had a sign of life of it, by a steady clock.
        self.held, self.alive = None, time.monotonic()
        self.offers = self.passed = 0
        self.ports, self.dropped_before, self.arrived_before, self.lost_before = {}, {}, {}, {}

    def name(self):
        numbers = self.legs.numbers
        return f"call{'s' * (len(numbers) > 1)} {' and '.join(map(str, numbers))} ({text_of(self.id)})"

    def known_address(self, side):
        """The address that this side's text had before."""
        return next((address for address in addresses(self.said.get(side, b"")) if address != NOWHERE), None)


class Book:
    """`addresses` has by side the address that its telephones reach, `interfaces` more of them by name. `log` is given
    a line for each call; `muxes` says that the gateway takes one port for RTP and RTCP, and so joins no calls. To be
    set: `tell`, which is given each call that has ended by itself, and why; `arrived`, which answers packets and octets
    by port; `keep`, which is given `all` where a call is live, or there no more; `settled`, which is given each call
    behind each answer that was taken, and `left`, each call that is there no more."""

    def __init__(self, driver, addresses, interfaces, log, muxes=False, hold=HOLD):
        self.driver, self.interfaces, self.log, self.hold, self.muxes = driver, interfaces, log, hold, muxes
        self.addresses = {**addresses, "first": addresses["secure"], "second": addresses["secure"]}
        self.seen = functools.partial(seen, muxes=muxes)
        self.tell, self.arrived, self.keep = lambda call, why: None, lambda ports: {}, lambda calls: None
        self.settled = self.left = lambda call: None
        self.lock = threading.RLock()
        self.by_id, self.by_number = {}, {}
        self.numbers = itertools.count(1)
        self.counts = collections.Counter()

    # ---- offers

    def offer(self, request):
        """The text for the side that is offered to."""
        request.needs("call_id", "from_tag", "sdp")
        request.check()
        call = self.offered_within(request) or self.new(request)
        if call.open and not call.live and isinstance(call.legs, Pair) != self.is_pair(request):
            call = self.withdrawn(call, request)
        side = self.side_of(request, call)
        text = taken(request, call, side)
        known = call.open
        if known and known.tag == request.from_tag and self.seen(text) == self.seen(known.text):
            call.open = known._replace(text=text, given=carried(text, known.given), nowhere=holds(request.sdp),
                                       quiet=is_quiet(request.sdp))
        else:
            if known:
                call = self.withdrawn(call, request)
            self.opened(request, call, side, text)
        call.told = time.time()
        self.remember(request, call, side)
        return self.for_side(request, call, FAR[side], call.open.given, call.open.nowhere)

    def offered_within(self, request):
        """The call within which an offer is made, or whose offer it is once more."""
        tags = {request.from_tag, request.to_tag} - {b""}
        for call in reversed(self.by_id.get(request.call_id, [])):
            if request.to_tag and call.live and tags <= call.tags.keys():
                return call
            # The offer of a 183 comes again with the 200, and has the tags of both by then.
            if not call.live and call.branch == request.branch and request.from_tag in call.tags:
                return call
        return None

    def new(self, request):
        """A call that isn't in the book yet."""
        if self.driver.draining:
            raise Full(DRAINING)
        return Call((Pair if self.is_pair(request) else Single)(self.driver, self.numbers), request)

    def is_pair(self, request):
        """Whether an offer is for two telephones that encrypt, and whose calls can be joined."""
        both = PROFILES.get(profile(request.sdp)), PROFILES.get(request.transport)
        return both == ("secure", "secure") and not self.muxes

    def side_of(self, request, call):
        """The side of the one who offers: what it was in the call before, or else what its text and the profile that the
        other side is to have make of it. A telephone that encrypts though its profile doesn't say so is secure where the
        other side isn't to be."""
        to, asked = PROFILES.get(request.transport), text_of(request.transport)
        if isinstance(call.legs, Pair):
            if to == "plain":
                raise Bad(f"transport-protocol {asked}: both telephones of this call encrypt")
            return call.tags.get(request.from_tag, "first")
        own = PROFILES.get(profile(request.sdp), FAR.get(to, "secure"))
        if own == "plain" == to and has_keys(request.sdp):
            own = "secure"
        side = call.tags.get(request.from_tag, own)
        if to == side:
            why = " that has --mux" * self.muxes if side == "secure" else ""
            raise Bad(f"transport-protocol {asked}: both sides would be {side}, and a call{why} has one of each")
        return side

    def withdrawn(self, call, request):
        """A call without its open offer: SIP's refusals of an offer aren't told to rtpengine, so the next offer is what
        tells that the one before came to nothing. A first offer takes its call with it."""
        offer, call.open = call.open, None
        if call.live:
            if not offer.passes:
                call.legs.rejects()
            return call
        call.legs.ends(False)
        self.forget(call)
        return self.new(request)

    def opened(self, request, call, side, text):
        """Makes the offer, through the gateway or past it."""
        passes = call.live and self.seen(text) == self.seen(call.said[side])
        given = carried(text, call.given[FAR[side]]) if passes else self.signalled(call, side, text)
        if side != "secure" and not passes:
            try:
                given = without_suites(given, request.suites())
            except Bad:
                # The gateway has taken the offer by then.
                call.legs.rejects()
                raise
        call.open = Offer(side, request.from_tag, text, given, passes, holds(request.sdp), is_quiet(request.sdp))
        call.offers += 1
        call.passed += passes

    @staticmethod
    def signalled(call, side, text):
        try:
            return call.legs.offers(call, side, text)
        except Refused as refused:
            if not call.live and str(refused).split()[0] in FULL:
                raise Full(str(refused)) from refused
            raise
        except Gone as gone:
            raise (Bad if call.live else Full)(f"the gateway has ended: {gone}") from gone

    def remember(self, request, call, side):
        """Keeps what the offer told of the call beside its text."""
        call.tags[request.from_tag] = side
        call.wears[side] = profiles(request.sdp)
        if request.transport:
            call.wears[FAR[side]] = [request.transport] * len(call.wears[side])
        if len(request.direction) > 1:
            call.interface[side], call.interface[FAR[side]] = map(text_of, request.direction[:2])
        with self.lock:
            if self.knows(call):
                return
            self.by_number.update(dict.fromkeys(call.legs.numbers, call))
            self.by_id.setdefault(call.id, []).append(call)
            self.counts["managed"] += 1
        try:
            call.ports = self.ports_of(call)
        except KeyError:
            # The gateway has ended meanwhile, and `gone` didn't know of this call.
            self.forget(call)
            raise Full("the gateway has ended") from None
        call.dropped_before, call.lost_before = counted(self.driver.drops, call), counted(self.driver.lost, call)
        call.arrived_before = self.arrived(call.ports)

    def knows(self, call):
        return all(number in self.by_number for number in call.legs.numbers)

    # ---- answers

    def answer(self, request):
        """The text for the side that offered."""
        request.needs("call_id", "from_tag", "to_tag", "sdp")
        request.check()
        call = self.answered(request)
        offer, call.told = call.open, time.time()
        if offer is None:
            return self.answered_again(request, call)
        side = FAR[offer.side]
        text = taken(request, call, side)
        if not offer.passes:
            given = call.legs.answers(call, side, text)
        elif seen(text) == seen(call.said[side]):
            given = carried(text, answering(call.given[offer.side], offer.text))
        else:
            raise Bad("the answer to an offer that went past the gateway changes ports, addresses or keys")
        call.said.update({offer.side: offer.text, side: text})
        call.given.update({offer.side: given, side: offer.given})
        call.tags[request.to_tag] = side
        was_live, call.live, call.open = call.live, True, None
        is_held = offer.quiet or is_quiet(request.sdp)
        call.held = (call.held or time.monotonic()) if is_held else None
        if not offer.passes and call.legs.renewed:
            call.alive = time.monotonic()
        if not was_live:
            self.log(f"{call.name()} is live: the {offer.side} side offered")
            self.keep(self.all)
        self.settled(call)
        return self.for_side(request, call, offer.side, given, holds(request.sdp))

    def answered(self, request):
        """The call whose offer is answered, or was answered before by the same telephone."""
        calls = [call for call in self.by_id.get(request.call_id, []) if request.from_tag in call.tags]
        calls = [call for call in calls if not request.branch or call.branch == request.branch] or calls
        if not calls:
            raise Bad("Unknown call-id" if request.call_id not in self.by_id else "Unknown from-tag")
        waiting = [call for call in calls if call.open and call.open.tag == request.from_tag]
        return (waiting or calls)[-1]

    def answered_again(self, request, call):
        """The answer of a provisional response comes again with the final one, with nothing changed that counts."""
        side = FAR[call.tags[request.from_tag]]
        text = taken(request, call, side)
        if not call.live or seen(text) != seen(call.said[side]):
            raise Refused("State")
        call.tags[request.to_tag] = side
        self.settled(call)
        return self.for_side(request, call, FAR[side], carried(text, call.given[FAR[side]]), holds(request.sdp))

    def for_side(self, request, call, side, text, nowhere):
        """A text as this side is to see it."""
        named = self.interfaces.get(call.interface.get(side))
        address = request.media_address or named or self.addresses[side]
        text = profiled(text, call.wears.get(side, []))
        return shown(text, address, b"origin" in request.replace, nowhere)

    # ---- calls that are held

    def quiet(self):
        """The calls that are to have a sign of life now."""
        now = time.monotonic()
        return [call for call in self.all() if self.needs_sign(call, now)]

    def needs_sign(self, call, now):
        return call.live and call.held is not None and now - call.held < self.hold and now - call.alive >= SIGN

    def give_sign(self, call):
        """Has the gateway take a held call for alive: an offer that is rejected, by which no key is spent. It stands in
        the order of the call's requests. Of an open offer that went past it the gateway knows nothing."""
        is_open = call.open and not call.open.passes
        if is_open or not self.knows(call) or not self.needs_sign(call, time.monotonic()):
            return
        call.alive = time.monotonic()
        try:
            call.legs.gives_sign(call)
        except (Refused, Gone) as fault:
            self.log(f"{call.name()} is held and couldn't be kept alive: {fault}")

    # ---- ends

    def delete(self, request):
        """Ends the call, or the branches that are named; a report of each, none where nothing fits."""
        request.needs("call_id")
        calls = self.meant(request)
        self.counts["deleted"] += len(calls)
        return [self.ended(call, "deleted") for call in calls]

    def meant(self, request):
        """The calls of a deletion: those of the branch, or what is live where no call has it, as at a BYE."""
        calls = [call for call in self.by_id.get(request.call_id, [])
                 if not request.from_tag or request.from_tag in call.tags]
        if not request.branch:
            return calls
        return [call for call in calls if call.branch == request.branch] or [call for call in calls if call.live]

    def ended(self, call, why):
        """Ends a call by a signal; its report."""
        call.legs.ends(call.live)
        report = self.report(call)
        self.forget(call)
        self.log(f"{call.name()} {why} after {time.time() - call.made:.1f} s{in_words(report)}")
        return report

    def gone(self, number, why):
        """The gateway has ended a call by itself."""
        with self.lock:
            call = self.by_number.get(number)
        if call is None:
            return
        self.forget(call)
        # Of two that are joined the other one doesn't go on alone.
        if any(other in self.driver.slots for other in call.legs.numbers):
            call.legs.ends(call.live)
        self.counts[why] += 1
        self.log(f"{call.name()} has ended by itself ({why}) after {time.time() - call.made:.1f} s")
        self.tell(call, why)

    def forget(self, call):
        with self.lock:
            known = [self.by_number.pop(number, None) for number in call.legs.numbers]
            left = [other for other in self.by_id.get(call.id, []) if other is not call]
            if left:
                self.by_id[call.id] = left
            else:
                self.by_id.pop(call.id, None)
        if any(known):
            self.left(call)
        if call.live:
            self.keep(self.all)

    def all(self):
        with self.lock:
            return list(dict.fromkeys(self.by_number.values()))

    # ---- counts

    def ports_of(self, call):
        """The call's ports, each with its medium, its side and its kind."""
        media = range(len(parts(call.open.text)) - 1)
        legs = [(medium, *leg) for medium in media for leg in call.legs.ports(medium)]
        return {port: (medium, side, KINDS[port % 2]) for medium, port, side in legs}

    def report(self, call):
        """What is known of a call's packets. Calls before it had the same ports."""
        arrived = {port: since(counts, call.arrived_before.get(port, (0, 0)))
                   for port, counts in self.arrived(call.ports).items()}
        dropped, lost = collections.Counter(counted(self.driver.drops, call)), collections.Counter(counted(self.driver.lost, call))
        dropped.subtract(call.dropped_before), lost.subtract(call.lost_before)
        return Report(call, +dropped, arrived, +lost)


def since(counts, before):
    """What was counted since: all of it where the counters began anew, as when nftables is loaded again."""
    return tuple(counts) if any(map(int.__lt__, counts, before)) else tuple(map(int.__sub__, counts, before))


def counted(causes, call):
    """What was ever counted at the ports of a call, by port and cause."""
    return {key: count for key, count in list(causes.items()) if key[0] in call.ports}


def taken(request, call, side):
    """The text as the gateway is to have it."""
    if b"TLS" in profile(request.sdp):
        raise Bad("the text asks for DTLS, which is not supported: keys come by SDES or MIKEY")
    text = addressed(request.sdp, request.source(), call.known_address(side))
    text = unmuxed(text) if request.rejects_mux() else text
    return secured(text) if side != "plain" and has_keys(text) else text


def in_words(report):
    """Offers and drops of a call, for its line in the log."""
    call, said = report.call, ""
    offers = f": {call.offers} offer{'s' * (call.offers != 1)}"
    offers += f", {call.passed} of them past the gateway" if call.passed else ""
    for name, counts in (("dropped", report.dropped), ("lost", report.lost)):
        causes = collections.Counter()
        for (port, cause), count in counts.items():
            causes[f"{cause} at {' '.join(call.ports[port][1:])}"] += count
        said += "".join(f"; {name} {count} {cause}" for cause, count in sorted(causes.items()))
    return offers + said
