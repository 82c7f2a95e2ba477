"""Calls through Kamailio and a gateway behind it. See calls.sh."""

import contextlib
import os
import re
import subprocess
import sys
import tempfile
import threading
import time
from pathlib import Path

from stack import HERE, asked, dialogs, kamailio, ng, rtpengine

from baresip import Phone, SECONDS, told  # noqa: E402
from ends import is_bound, speech, wait_until  # noqa: E402
from telephone import FIRST, Media, Refused, SUITES, Telephone, master, registers  # noqa: E402

HOST, PROXY, NG = "127.0.0.1", ("127.0.0.1", 5070), ("127.0.0.1", 2223)
ALICE, BOB, ECHO = (HOST, 5060), (HOST, 5062), (HOST, 5080)
AT_ONCE, FOR = 40, 6


def echo(folder, calls, seconds):
    """SIPp, which ends behind so many calls."""
    words = ["sipp", "-sf", HERE / "echo.xml", "-i", HOST, "-p", "5080", "-mi", HOST, "-mp", "43000", "-ci", HOST,
             "-rtp_echo", "-m", str(calls), "-timeout", str(seconds), "-timeout_error", "-nostdin"]
    with open(Path(folder) / "sipp.log", "wb") as log:
        started = subprocess.Popen(words, stdout=log, stderr=subprocess.STDOUT, cwd=folder)
    wait_until(lambda: is_bound(ECHO[1]), what="SIPp")
    return started


def calls_an_echo(folder):
    """baresip, which encrypts, calls SIPp, which doesn't and sends back what comes."""
    phone = Phone(folder, "alice", ALICE, 42_000, True, 1)
    sipp = echo(folder, 1, 60)
    phone.run(SECONDS + 1, f"sip:echo@{HOST}:{PROXY[1]}").wait(timeout=60)
    ended = sipp.wait(timeout=60)
    print(f"SIPp ended with {ended}, 0 where its one call was whole")
    return told(phone, phone) and ended == 0


def is_called(folder):
    """A baresip without SRTP calls one that encrypts."""
    alice, bob = Phone(folder, "carol", ALICE, 42_100, True, 2), Phone(folder, "bob", BOB, 42_200, False, 3)
    registers("carol", ALICE, PROXY)
    answering = alice.run(SECONDS + 4)
    wait_until(lambda: is_bound(ALICE[1]), what="baresip")
    bob.run(SECONDS + 1, f"sip:carol@{HOST}:{PROXY[1]}").wait(timeout=60)
    answering.wait(timeout=60)
    return told(alice, bob) & told(bob, alice)


def is_held(folder):
    """baresip calls baresip, and each holds and resumes, which are four offers within the call."""
    dave, erin = Phone(folder, "dave", ALICE, 42_300, True, 4), Phone(folder, "erin", BOB, 42_400, False, 5)
    registers("erin", BOB, PROXY)
    answering = erin.run(SECONDS + 4)
    wait_until(lambda: is_bound(BOB[1]), what="baresip")
    calling = dave.run(SECONDS + 1, f"sip:erin@{HOST}:{PROXY[1]}")
    for phone, key in ((dave, "hold"), (dave, "resume"), (erin, "hold"), (erin, "resume")):
        time.sleep(1.5)
        phone.press(key)
    calling.wait(timeout=60), answering.wait(timeout=60)
    (sent, took), (back, heard) = dave.counts(), erin.counts()
    for phone, own, other in ((dave, sent, took), (erin, back, heard)):
        print(f"{phone.name} ({phone.suite()}): {own} packets sent, {other} taken")
    # The called one sends before its answer has gone through, and some are under way when the other one hangs up.
    return sent > 100 and back > 100 and abs(sent - heard) < 10 and abs(back - took) < 30


def new_keys(folder):
    """A telephone in Python offers new keys within the call, twice; by srtpgw the other one then moves its media."""
    plain = []
    bob = Telephone("fred", BOB, PROXY, lambda: plain.append(Media((HOST, 26_000))) or plain[0])
    registers("fred", BOB, PROXY)
    alice = Telephone("gina", ALICE, PROXY)
    media = Media((HOST, 26_010), master())
    call = alice.calls("fred", media)
    there, back = speech(FOR, 11), speech(FOR, 12)
    threads = [threading.Thread(target=one.sends, args=(octets,)) for one, octets in ((media, there), (plain[0], back))]
    for thread in threads:
        thread.start()
    time.sleep(1.5)
    call.offers(master())
    time.sleep(1.5)
    call.offers(master("AES_CM_128_HMAC_SHA1_32"))
    time.sleep(1.5)
    far = bob.came[0]
    if NAME == "srtpgw":
        far.media = Media((HOST, 26_004))
        far.media.came = plain[0].came
        far.offers()
    for thread in threads:
        thread.join()
    time.sleep(0.5)
    # A telephone that answers seals under its new key at once, before its answer has gone through.
    good = arrived("to the plain side", there, plain[0], 15) & arrived("to the secure side", back, media, 0)
    print(f"under {len(media.openings)} keys of the gateway's in turn, {len(media.early)} under none")
    ended = call.ends()
    wait_until(far.ended.is_set, what="BYE at the far telephone")
    for one in {alice, bob, media, plain[0], far.media}:
        one.close()
    # rtpengine keeps its key where the suite stays.
    return good and ended == 200 and (len(media.openings) == 4 or NAME == "rtpengine")


def arrived(name, sent, media, missing, first=FIRST):
    """Whether all packets but so many arrived, each as it was sent. rtpengine may lose some at new keys."""
    wanted = dict(enumerate((sent[at:at + 160] for at in range(0, len(sent), 160)), first))
    same = media.came.items() <= wanted.items()
    print(f"{name}: {len(media.came)} of {len(wanted)} packets:", "the same" if same else "NOT THE SAME", flush=True)
    return same and len(wanted) - len(media.came) <= (missing if NAME == "srtpgw" else 15)


def is_cancelled(folder):
    """A call that rings is cancelled by the caller; another one isn't taken, since its text has no key."""
    henry = Telephone("henry", BOB, PROXY)
    registers("henry", BOB, PROXY)
    alice = Telephone("iris", ALICE, PROXY)
    media = Media((HOST, 26_020), master())
    status = alice.call("henry", media).cancels()
    wait_until(henry.came[0].ended.is_set, what="CANCEL at the far telephone")
    print(f"the cancelled INVITE: {status}")
    good = status == 487 and (NAME == "rtpengine" or is_refused(alice, media))
    for one in (alice, henry, media):
        one.close()
    return good


def is_refused(alice, media):
    """rtpengine lets such a text by."""
    without_a_key(media)
    status = status_of(lambda: alice.calls("henry", media))
    print(f"the one without a key: {status}")
    return status == 488


def has_early_media(folder):
    """The called telephone answers by 183 first, and talks before it is picked up."""
    plain, media, back = [], Media((HOST, 26_042), master()), speech(3, 21)
    mary = Telephone("mary", BOB, PROXY, lambda: plain.append(Media((HOST, 26_040))) or plain[0], early=2)
    registers("mary", BOB, PROXY)
    nick = Telephone("nick", ALICE, PROXY)

    def talks():
        wait_until(lambda: plain and plain[0].to, what="the 183")
        time.sleep(0.5)
        plain[0].sends(back)
    thread = threading.Thread(target=talks)
    thread.start()
    call = nick.calls("mary", media)
    early = len(media.came)
    thread.join()
    time.sleep(0.5)
    good = arrived("to the secure side", back, media, 0) and early > 25
    print(f"{early} of them before it was picked up")
    call.ends()
    for one in (mary, nick, media, plain[0]):
        one.close()
    return good


def talks(call, far, seed):
    """Two seconds each way, whole."""
    there, back = speech(2, seed), speech(2, seed + 1)
    first = FIRST + 1_000 * seed
    pairs = ((call.media, there), (far.media, back))
    for media, _ in pairs:
        media.came.clear()
    together(lambda pair: pair[0].sends(pair[1], first), pairs)
    with contextlib.suppress(TimeoutError):
        wait_until(lambda: all(len(media.came) >= 100 for media in (call.media, far.media)), 5, "all packets")
    return arrived("to the plain side", there, far.media, 0, first) & arrived("to the secure side", back, call.media, 0, first)


def offers_late(folder):
    """An INVITE without a text: the called telephone offers with its 200, and is answered by the ACK; then an UPDATE and a
    PRACK bring new keys."""
    plain = []
    olga = Telephone("olga", BOB, PROXY, lambda: plain.append(Media((HOST, 26_050 + 4 * len(plain)))) or plain[-1])
    registers("olga", BOB, PROXY)
    peter = Telephone("peter", ALICE, PROXY)
    media = Media((HOST, 26_062), master())
    call = peter.call("olga", media)
    call.offers_nothing()
    wait_until(lambda: plain[0].to, what="the ACK")
    good = talks(call, olga.came[0], 1)
    call.updates(key=master())
    good &= talks(call, olga.came[0], 2)
    call.updates("PRACK", master())
    good &= talks(call, olga.came[0], 3)
    print(f"under {len(media.openings)} keys of the gateway's in turn")
    ended = call.ends()
    for one in (olga, peter, media, *plain):
        one.close()
    return good and ended == 200 and (len(media.openings) == 3 or NAME == "rtpengine")


def without_a_key(media):
    """Has its texts have no key, so the gateway refuses them."""
    media.text = lambda *_: Media.text(media).replace(b"a=crypto:1", b"a=crypto:none")


def is_answered_badly(folder):
    """The called telephone answers without a key, so the gateway refuses its text: both have BYE, behind the ACK of an INVITE
    and at once behind an UPDATE."""
    media, own = Media((HOST, 26_032), master()), [Media((HOST, 26_030)), Media((HOST, 26_034))]
    kate, louis = Telephone("kate", ALICE, PROXY, lambda: media), Telephone("louis", BOB, PROXY)
    registers("kate", ALICE, PROXY)
    updated = louis.calls("kate", own[0])
    without_a_key(media)
    updated.media = own[1]
    updated.updates()
    for call in (updated, louis.calls("kate", own[0])):
        for one, name in ((call, "the caller"), (kate.by_id[call.id], "the called one")):
            wait_until(one.ended.is_set, what=f"BYE at {name}")
    print("both had BYE, twice")
    for one in (kate, louis, media, *own):
        one.close()
    return True


def is_refused_within(folder):
    """Within a call an offer is cancelled, and a re-INVITE and an UPDATE without a key aren't taken: it goes on each time."""
    plain, media = Media((HOST, 26_072)), Media((HOST, 26_070), master())
    quinn = Telephone("quinn", BOB, PROXY, lambda: plain)
    registers("quinn", BOB, PROXY)
    rose = Telephone("rose", ALICE, PROXY)
    call = rose.calls("quinn", media)
    far = quinn.came[0]
    good = talks(call, far, 1)
    far.media = None
    good &= call.cancels(100) == 487
    far.media = plain
    good &= talks(call, far, 2)
    without_a_key(media)
    for place, offers in enumerate((call.offers, call.updates), 3):
        good &= status_of(lambda: offers(key=master())) == 488
        good &= talks(call, far, place)
    ended = call.ends()
    for one in (quinn, rose, media, plain):
        one.close()
    return good and ended == 200


def status_of(offers):
    """By what an offer is refused."""
    try:
        offers()
    except Refused as fault:
        return fault.args[0]
    return 200


def forty(folder):
    """Forty calls at once of telephones that encrypt, in four suites, to SIPp."""
    sipp = echo(folder, AT_ONCE, 90)
    alice = Telephone("judy", ALICE, PROXY)
    suites = [suite for suite in SUITES if NAME == "srtpgw" or "192" not in suite]
    media = [Media((HOST, 26_100 + 2 * place), master(suites[place % len(suites)])) for place in range(AT_ONCE)]
    began = time.monotonic()
    calls = [alice.call("echo", one) for one in media]
    together(lambda call: call.offers(), calls)
    print(f"{AT_ONCE} calls made within {time.monotonic() - began:.1f} s")
    sent = [speech(FOR, 100 + place) for place in range(AT_ONCE)]
    together(lambda pair: pair[0].sends(pair[1]), list(zip(media, sent)))
    time.sleep(1)
    whole = sum(one.heard() == octets for one, octets in zip(media, sent))
    packets = sum(len(one.came) for one in media)
    print(f"{packets} of {AT_ONCE * FOR * 50} packets came back, opened and sealed; {whole} of {AT_ONCE} calls whole")
    together(lambda call: call.ends(), calls)
    ended = sipp.wait(timeout=60)
    for one in (alice, *media):
        one.close()
    # rtpengine left out some packets at the start of streams in one of three runs.
    return (whole == AT_ONCE if NAME == "srtpgw" else packets > 0.95 * AT_ONCE * FOR * 50) and ended == 0


def together(work, items):
    threads = [threading.Thread(target=work, args=(item,)) for item in items]
    for thread in threads:
        thread.start()
    for thread in threads:
        thread.join()


NAME = "rtpengine" if "rtpengine" in sys.argv[1:] else "srtpgw"
SCENES = [calls_an_echo, is_called, is_held, new_keys, has_early_media, offers_late, is_cancelled]
SCENES += [is_answered_badly, is_refused_within] * (NAME == "srtpgw") + [forty]


def version(*words):
    out = subprocess.run(words, capture_output=True, text=True)
    return next((line for line in (out.stdout + out.stderr).splitlines() if re.search(r"\d\.\d", line)), "?").strip()


def played(programs, scenes, begun=lambda gateway: None):
    """Plays the scenes that the words name, or all of them, through Kamailio and what NAME is; what to end with."""
    for words in programs:
        print(version(*words))
    print(f"through {NAME}", flush=True)
    wanted = [scene for scene in scenes if scene.__name__ in sys.argv[1:]] or scenes
    good = []
    with tempfile.TemporaryDirectory() as folder:
        words = ["--tell", f"http://{HOST}:5071/RPC"] + (["--step", os.environ["STEP"]] if os.environ.get("STEP") else [])
        gateway = rtpengine(folder) if NAME == "rtpengine" else ng(folder, NG, None, "ng", *words)
        begun(gateway)
        proxy = kamailio(folder)
        try:
            for scene in wanted:
                print(f"{scene.__name__}: {scene.__doc__}", flush=True)
                good.append(scene(folder))
            time.sleep(1)
            left = asked(NG, "list").get(b"calls")
            print(f"left at the end: {left}, {dialogs()} dialogs")
            good.append(left == [])
        finally:
            proxy.ends()
            status = gateway.ends()
            if os.environ.get("LOGS"):
                print(proxy.text(), gateway.text())
            elif NAME == "srtpgw":
                print(gateway.text(), end="")
    print(f"{NAME} ended with {status}; {sum(good)} of {len(good)} as they should be")
    return 0 if all(good) and status == 0 else 1


def main():
    programs = [("kamailio", "-v"), ("baresip", "-h"), ("sipp", "-v")] + [("rtpengine", "--version")] * (NAME == "rtpengine")
    return played(programs, SCENES)


if __name__ == "__main__":
    sys.exit(main())
