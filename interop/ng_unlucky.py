#!/usr/bin/env python3
"""Uses the NG daemon (tools/ng) where something around it goes wrong: letters that its log can't spell, a log that nobody
reads, a full disk, commands that nobody knows, requests that come all at once, signals of the system; and looks at what is
left of calls that came to nothing, and at calls that are held.

    interop/ng_unlucky.py PROGRAM [CHECK..]     all of them, or these

It needs what interop/ng_protocol.py needs.
"""
import contextlib
import json
import os
import re
import resource
import signal
import subprocess
import sys
import tempfile
import time
import types
from pathlib import Path

from loopback import has_own_loopback
from ng_protocol import (
    HOST, KEEPS, Kamailio, NG, PLAIN, SECURE, Server, TOP, at_once, bencoded, call, ends, is_too_long, key, lines_of, passes,
    plain, port_of, reason_of, running, secure, sockets, tells_kamailio, text_of,
)
from usage import words_or_usage

from driver import Driver  # noqa: E402, found by ng_protocol
from ng import __main__ as ng_main, bencode, calls as ng_calls, server as ng_server  # noqa: E402
from ng.request import Request  # noqa: E402

ALL_SECONDS = 900
# Letters that Latin-1 and ASCII lack, and octets that are no UTF-8.
ODD_CALLS = ("call-\u20ac", b"\xff\xfe\x80", "\u202e\x1b[2J")
LOCALES = (
    {"PYTHONIOENCODING": "latin-1"}, {"PYTHONIOENCODING": "ascii"},
    {"LC_ALL": "C", "PYTHONUTF8": "0", "PYTHONCOERCECLOCALE": "0"},
)


def are_answered(server, count=100):
    """Whether requests of so many other calls are answered, which all workers share."""
    return all(reason_of(server.asks("query", call_id=f"other {number}")) == "Unknown call-id" for number in range(count))


# ---- the log


def odd_letters(program):
    """Call-IDs that the log's encoding can't spell: each is answered, and all others."""
    for more in LOCALES:
        with running(program, more=more) as (daemon, server):
            for name in ODD_CALLS:
                for command in ("query", "offer", "answer"):
                    server.asks(command, call_id=name, from_tag=name, to_tag=name, sdp=name)
            at_once(server, [{"command": "query", "call-id": f"\u20ac{number}"} for number in range(200)])
            assert are_answered(server)
            assert daemon.has_said(r"query of call-(\\u20ac|\u20ac|\?) refused")
    return f"in {len(LOCALES)} locales"


def nobody_reads(program):
    """A log that nobody reads any more: requests are answered, the rest is counted, and the daemon ends."""
    words = [sys.executable, TOP / "tools" / "ng", "--listen", "%s:%d" % NG, "--program", program]
    process = subprocess.Popen(words, stdout=subprocess.PIPE, stderr=subprocess.STDOUT, text=True)
    try:
        while "answers NG requests" not in process.stdout.readline():
            assert process.poll() is None, process.returncode
        server, count = Server(), 0
        while count < 7_000:
            count += asks_long_names(server)
        call(server, "one")
        lost = read_on(process.stdout, server)
        assert 1_000 < lost < count, lost
        for _ in range(5):
            asks_long_names(server)
        process.send_signal(signal.SIGTERM)
        # It ends though nobody reads on.
        assert process.wait(60) == 0, process.returncode
    finally:
        process.kill()
    return f"{count} requests answered, {lost} lines lost, and told"


def asks_long_names(server):
    """A hundred requests, each of which is a line of the log."""
    return len(at_once(server, [{"command": "query", "call-id": f"{number} {'x' * 100}"} for number in range(100)]))


def read_on(log, server):
    """How many lines the log says are lost, once somebody reads it again."""
    for place, line in enumerate(log):
        if place % 100 == 0:
            server.asks("query", call_id="late")
        found = re.search(r"(\d+) lines of this log are lost", line)
        if found:
            return int(found[1])


def full_disks(program):
    """No room for a single octet in the log of outcomes and the file of dialogs: calls go on."""
    def no_file_grows():
        resource.setrlimit(resource.RLIMIT_FSIZE, (0, 0))
    with tempfile.TemporaryDirectory() as folder:
        words = ["--outcomes", f"{folder}/outcomes", "--calls", f"{folder}/calls"]
        with running(program, *words, preexec_fn=no_file_grows) as (daemon, server), sockets() as (at_secure, at_plain):
            to_plain, _ = call(server, "one")
            passes(at_plain, at_secure, port_of(to_plain))
            assert daemon.has_said("the dialogs couldn't be kept")
            ends(server, "one", daemon)
        assert Path(words[1]).stat().st_size == 0
    return "a call and a packet"


# ---- requests


def unknown_commands(program):
    """Commands that nobody knows are counted under one name, so that what is counted stays short."""
    with running(program) as (_, server):
        for number in range(600):
            assert server.asks(f"{'x' * 120}{number}", call_id="one")[b"result"] == b"error"
        counted = server.asks("statistics")[b"statistics"][b"refused"]
        assert counted == {b"another": 600}, counted
    return "600 of them"


def in_their_order(program):
    """Requests of one call that come all at once are obeyed in the order in which they came."""
    with running(program) as (_, server):
        messages = []
        for number in range(40):
            names = {"call-id": f"call {number}", "from-tag": "a"}
            messages += [
                {**names, "command": "offer", "sdp": plain(), "transport-protocol": "RTP/SAVP"},
                {**names, "command": "answer", "to-tag": "b", "sdp": secure()}, {**names, "command": "delete"}]
        answers = at_once(server, messages)
        assert all(answer[b"result"] == b"ok" and b"warning" not in answer for answer in answers), answers
        assert server.asks("list")[b"calls"] == []
    return f"{len(messages)} requests of 40 calls"


def a_fault_of_its_own(program):
    """A fault of the daemon's own ends neither the worker, nor a call that is there, and tells no key."""
    driver = Driver(program)
    try:
        log = []
        book = ng_calls.Book(driver, {"secure": b"127.0.0.1", "plain": b"127.0.0.1"}, {}, log.append)
        own = ng_server.Server(book, (HOST, 0), log.append)

        def fails(*_):
            raise ZeroDivisionError(KEEPS)
        book.delete = own.send = fails
        for number in range(3):
            own.hand_on({b"command": b"delete", b"call-id": b"one"}, b"%d" % number, (HOST, 9))
        # One at each deletion, and one at each answer.
        wait_until(lambda: sum("own: ZeroDivisionError" in line for line in log) == 6, "the faults in the log")
        assert not any(KEEPS in line or KEEPS[-20:] in line for line in log), "a key is in the log"
        del own.send
        heard = []
        own.send = lambda octets, sender: heard.append(octets)
        own.hand_on({b"command": b"list", b"call-id": b"one"}, b"4", (HOST, 9))
        wait_until(lambda: heard == [b"4 d5:callsle6:result2:oke"], "the next request's answer")
    finally:
        driver.close()
    return "three of one call, and the next request is answered"


def wait_until(holds, what, seconds=60):
    end = time.monotonic() + seconds
    while not holds():
        assert time.monotonic() < end, f"waited {seconds} s for {what}"
        time.sleep(0.02)


def answers_grow_old(_):
    """An answer is kept for a minute, or until there are too many."""
    now = [1_000.0]
    kept_by = ng_server.time
    ng_server.time = types.SimpleNamespace(monotonic=lambda: now[0])
    try:
        answers = ng_server.Answers()
        assert answers.begin("one") == (True, None)
        answers.end("one", b"x" * 100)
        now[0] += ng_server.KEPT_SECONDS - 1
        assert answers.begin("one") == (False, b"x" * 100)
        now[0] += 2
        assert answers.begin("two")[0] and answers.begin("one") == (True, None) and answers.octets == 0
        for number in range(ng_server.KEPT_MOST + 100):
            answers.begin(number)
        assert len(answers.kept) <= ng_server.KEPT_MOST + 1, len(answers.kept)
    finally:
        ng_server.time = kept_by
    return f"{ng_server.KEPT_SECONDS} s, {ng_server.KEPT_MOST} of them"


# ---- texts


def optional_encryption(program):
    """A text with one medium that encrypts and one that doesn't: the media with keys are those of the secure side."""
    both = [f"m=audio {PLAIN[1]} RTP/AVP 0", "a=rtpmap:0 PCMU/8000"]
    with running(program) as (_, server), sockets() as (at_secure, at_plain):
        lines = lines_of(server.offers("one", "a", secure(*both), "RTP/AVP"))
        assert [line.split()[1:3] for line in lines if line.startswith("m=")] == [["20002", "RTP/AVP"], ["0", "RTP/AVP"]], lines
        lines_of(server.answers("one", "ab", plain("m=audio 0 RTP/AVP 0")))
        passes(at_plain, at_secure, 20_002)
        lines = lines_of(server.offers("two", "a", text_of(SECURE, "RTP/AVP", key(), *both), "RTP/AVP"))
        assert [line.split()[2] for line in lines if line.startswith("m=")] == ["RTP/AVP", "RTP/AVP"], lines
    return "taken, and a packet"


def one_medium_holds(program):
    """A text holds by an address where all of its media do, and not where one does."""
    video = ["m=video 4012 RTP/AVP 96", "c=IN IP4 0.0.0.0"]
    with running(program) as (_, server):
        lines = lines_of(server.offers("one", "a", plain(*video), "RTP/SAVP"))
        assert "c=IN IP4 0.0.0.0" not in lines, lines
        nowhere = plain(*video).replace(f"c=IN IP4 {HOST}", "c=IN IP4 0.0.0.0")
        lines = lines_of(server.offers("two", "a", nowhere, "RTP/SAVP"))
        assert "c=IN IP4 0.0.0.0" in lines and f"c=IN IP4 {HOST}" not in lines, lines
    return "as it says"


# ---- calls


def nothing_is_left(program):
    """An offer that is refused behind the gateway's back leaves no call there, and a call no counts to the next one."""
    with running(program) as (daemon, server), sockets() as (_, at_plain):
        for _ in range(3):
            assert "suite" in reason_of(server.offers("one", "a", plain(), "RTP/SAVP", SDES=["only-F8"]))
        to_plain, _ = call(server, "one")
        assert port_of(to_plain) == 20_002, to_plain
        at_plain.sendto(b"\x80\x00", (HOST, 20_002))
        wait_until(lambda: server.asks("query", call_id="one")[b"drops"] == {b"Short": 1}, "a drop")
        ends(server, "one", daemon)
        to_plain, _ = call(server, "two")
        assert port_of(to_plain) == 20_002 and server.asks("query", call_id="two")[b"drops"] == {}
    return "the first slot each time, without drops"


def only_live_ones_are_told(program):
    """What a daemon that is killed leaves to tell are the calls that were answered."""
    with tempfile.TemporaryDirectory() as folder, tells_kamailio() as url:
        words = ["--tell", url, "--calls", f"{folder}/calls"]
        with contextlib.suppress(AssertionError), running(program, *words) as (daemon, server):
            lines_of(server.offers("rings", "a", plain(), "RTP/SAVP"))
            call(server, "talks")
            daemon.process.kill()
        assert not Kamailio.told
        until = time.monotonic() + 30
        while not Kamailio.told and time.monotonic() < until:
            with contextlib.suppress(AssertionError), running(program, *words):
                time.sleep(0.5)
        assert Kamailio.told == [["dlg.terminate_dlg", "talks", "a", "b"]], Kamailio.told
    return "and not one that rings"


def a_slow_server_is_told_of_all(program, calls=40):
    """Where Kamailio takes its time, what a daemon that is ended couldn't tell is told by the next one."""
    with tempfile.TemporaryDirectory() as folder, tells_kamailio() as url:
        words, wanted = ["--tell", url, "--calls", f"{folder}/calls"], {f"call {number}" for number in range(calls)}
        Kamailio.seconds = 4
        try:
            with running(program, *words) as (daemon, server):
                for name in wanted:
                    call(server, name)
                daemon.process.send_signal(signal.SIGTERM)
                assert daemon.has_said("hasn't been told of"), daemon.lines
                assert daemon.ends(None) == 0
        finally:
            Kamailio.seconds = 0
        first = len(Kamailio.told)
        assert first > 3, "it is told of one behind another"
        with running(program, *words) as (_, server):
            wait_until(lambda: {told[1] for told in Kamailio.told} == wanted, "the rest")
            assert server.asks("list")[b"calls"] == []
        assert json.loads(Path(words[-1]).read_text()) == []
    return f"{first} of {calls} by the first, and the rest by the next"


@contextlib.contextmanager
def book_of(program, hold):
    """A book over a gateway, whose calls that are held need a sign of life twice a second, and the lines that it told."""
    driver, told, sign = Driver(program), [], (ng_calls.SIGN, ng_server.BETWEEN_SIGNS)
    ng_calls.SIGN, ng_server.BETWEEN_SIGNS = 0.5, 0.1
    tells = driver.gateway.tell_all
    driver.gateway.tell_all = lambda lines: (told.extend(lines), tells(lines))
    book = ng_calls.Book(driver, {"secure": b"127.0.0.1", "plain": b"127.0.0.1"}, {}, lambda line: None, hold=hold)
    server = ng_server.Server(book, (HOST, 0), lambda line: None)
    try:
        yield book, driver, told
    finally:
        ng_calls.SIGN, ng_server.BETWEEN_SIGNS = sign
        server.close()
        driver.close()


def request(command, name, text, tags=("a", ""), **more):
    fields = {"command": command, "call-id": name, "from-tag": tags[0], "to-tag": tags[1], "sdp": text, **more}
    return Request(bencode.decoded(bencoded({key: value for key, value in fields.items() if value})))


def held_calls(program):
    """A call that is held has a sign of life by a rejected offer, which spends no key, until the hold is over, also beside an
    offer that went past the gateway and has no answer; one that isn't has none."""
    def rejected():
        return sum(line[:2] == ("reject", "1") for line in told)
    with book_of(program, hold=8.0) as (book, driver, told):
        for name in ("held", "talks"):
            text = secure(crypto=KEEPS if name == "held" else key())
            book.offer(request("offer", name, text, **{"transport-protocol": "RTP/AVP"}))
            book.answer(request("answer", name, plain(), ("a", "b")))
        first, spent = len(told), dict(driver.spent)
        time.sleep(1.5)
        assert len(told) == first, told[first:]
        quiet = secure("a=sendonly", crypto=KEEPS)
        book.offer(request("offer", "held", quiet, ("a", "b"), **{"transport-protocol": "RTP/AVP"}))
        book.answer(request("answer", "held", plain("a=recvonly"), ("a", "b")))
        wait_until(lambda: rejected() >= 2, "two signs of life")
        book.offer(request("offer", "held", secure(crypto=KEEPS), ("a", "b"), **{"transport-protocol": "RTP/AVP"}))
        wait_until(lambda: rejected() >= 5, "three more beside an open offer")
        time.sleep(9)
        signs = [line[:2] for line in told[first:]]
        assert set(signs) == {("offer-plain", "1"), ("reject", "1"), ("bye", "0")}, signs
        rest = len(told)
        time.sleep(1)
        assert len(told) == rest, "the hold is over"
        assert dict(driver.spent) == spent and 1 in driver.slots, driver.spent
        book.offer(request("offer", "held", secure(crypto=KEEPS), ("a", "b"), **{"transport-protocol": "RTP/AVP"}))
        book.answer(request("answer", "held", plain(), ("a", "b")))
        assert len(told) == rest, "resumed past the gateway"
        return f"{rejected()} signs in eight seconds, no key spent"


# ---- signals of the system


def children_of(daemon):
    pid = daemon.process.pid
    return [int(child) for child in Path(f"/proc/{pid}/task/{pid}/children").read_text().split()]


def signals_to_all(program):
    """A signal to all processes of a unit, as `systemctl kill` sends it: the gateway is the daemon's to end."""
    def takes_signals():
        # Whoever runs this may ignore it.
        signal.signal(signal.SIGHUP, signal.SIG_DFL)
    with running(program, preexec_fn=takes_signals) as (daemon, server), sockets() as (at_secure, at_plain):
        to_plain, _ = call(server, "one")
        gateway = children_of(daemon)
        assert len(gateway) == 1, gateway
        for number in (signal.SIGHUP, signal.SIGUSR1):
            for pid in (daemon.process.pid, *gateway):
                os.kill(pid, number)
        daemon.has_said("takes no new calls")
        passes(at_plain, at_secure, port_of(to_plain))
        server.asks("delete", call_id="one")
        assert daemon.process.wait(30) == 0
    with tells_kamailio() as url, running(program, "--tell", url) as (daemon, server):
        call(server, "one")
        for pid in (*children_of(daemon), daemon.process.pid):
            os.kill(pid, signal.SIGTERM)
        assert daemon.ends(None) == 0
        assert Kamailio.told == [["dlg.terminate_dlg", "one", "a", "b"]], Kamailio.told
    return "it drains with its call, and ends with status 0 and a BYE"


def signals_at_once(program):
    """A signal that comes as soon as systemd is told that the daemon is ready is obeyed as any later one."""
    numbers = signal.SIGTERM, signal.SIGINT, signal.SIGUSR1, signal.SIGHUP
    kept, tells = [signal.getsignal(number) for number in numbers], ng_main.ready.tell

    def told(**said):
        if "READY" in said:
            assert all(callable(signal.getsignal(number)) for number in numbers), "it is ready, and takes no signals"
            os.kill(os.getpid(), signal.SIGTERM)
    ng_main.ready.tell = told
    try:
        given = ng_main.words_of().parse_args(["--listen", "%s:%d" % NG, "--program", program, "--priority", "0"])
        assert ng_main.run(given, lambda line: None) == 0
    finally:
        ng_main.ready.tell = tells
        for number, handler in zip(numbers, kept):
            signal.signal(number, handler)
    return "it ends with status 0"


def logs_are_begun_anew(program):
    """Behind SIGHUP the log of outcomes goes on in another file, which has the calls that are there."""
    with tempfile.TemporaryDirectory() as folder:
        path = Path(folder, "outcomes")
        with running(program, "--outcomes", path) as (daemon, server):
            call(server, "one")
            path.rename(f"{path}.moved")
            daemon.process.send_signal(signal.SIGHUP)
            daemon.has_said("is begun anew")
            call(server, "two")
            ends(server, "one", daemon)
            assert Path(f"{path}.moved").read_text() == "srtpgw 1\nmade 1 0 1\nlive 1\n"
            wanted = "there 1 0 1 live\nmade 2 1 1\nlive 2\nended 1 0 1 bye\n"
            wait_until(lambda: path.read_text() == wanted, "the new log")
            ends(server, "two", daemon)
    return "one call goes on in it"


def has_a_priority(program):
    """A real-time priority for the daemon and its gateway, or a line that says that it has none."""
    with running(program) as (daemon, _):
        found = {os.sched_getscheduler(pid) for pid in (daemon.process.pid, *children_of(daemon))}
        has_said = any("no real-time priority" in line for line in daemon.lines)
        assert has_said == (found != {os.SCHED_RR}), (found, daemon.lines)
    with running(program, "--priority", "0") as (daemon, _):
        assert not any("priority" in line for line in daemon.lines), daemon.lines
    took, said = os.sched_setscheduler, []

    def may_not(*_):
        raise PermissionError(1, "not permitted")
    try:
        os.sched_setscheduler = may_not
        ng_main.take_priority(10, said.append)
    finally:
        os.sched_setscheduler = took
    assert ["no real-time priority (not permitted)" in line for line in said] == [True], said
    return "taken, or told"


# ---- Kamailio's configuration


def a_late_offer_is_deleted(_):
    """Where a first offer isn't taken, or not in time, or is cancelled, the configuration has the gateway forget it. One within
    a call ends no call, and an answer that isn't taken does."""
    text = re.sub(r"\n\s*#.*", "", (TOP / "examples/kamailio/kamailio.cfg").read_text())
    offer, *answers = re.findall(r"if \(!rtpengine_(?:offer|answer)\(\"[^\"]*\"\)\) \{\s*(.*?)\n\t*\}", text, re.S)
    cancelled = re.findall(r"if \(is_method\(\"CANCEL\"\)\) \{\s*(.*?)\n", text)
    for block in (offer, *cancelled):
        assert block.startswith("if (!has_totag()) rtpengine_delete();"), block
    for block in answers:
        assert block.startswith("rtpengine_delete();"), block
    assert 'if (is_method("UPDATE")) dlg_bye("all");' in answers[0], answers[0]
    assert (len(cancelled), len(answers)) == (1, 3), (cancelled, answers)
    return f"at {len(answers) + 2} places"


ALL = (
    odd_letters, nobody_reads, full_disks, unknown_commands, in_their_order, a_fault_of_its_own, answers_grow_old,
    optional_encryption, one_medium_holds, nothing_is_left, only_live_ones_are_told, a_slow_server_is_told_of_all,
    held_calls, signals_to_all, signals_at_once, logs_are_begun_anew, has_a_priority, a_late_offer_is_deleted,
)


def main(program, *names):
    signal.signal(signal.SIGALRM, is_too_long)
    signal.alarm(ALL_SECONDS)
    has_own_loopback()
    for check in [check for check in ALL if check.__name__ in names] or ALL:
        since = time.monotonic()
        print(f"{check.__name__}: {check(program)}; {time.monotonic() - since:.1f} s", flush=True)


if __name__ == "__main__":
    main(*words_or_usage(__doc__))
