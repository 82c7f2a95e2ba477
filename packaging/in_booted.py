#!/usr/bin/env python3
"""Installs the package in a machine that runs under systemd, uses both units as an operator does, and removes it. See
packaging/booted, which runs this in a container of its own."""
import base64
import os
import signal
import socket
import subprocess
import sys
import time
import urllib.request
from pathlib import Path

DEB, DEFAULTS, OUTCOMES = "/looked/srtpgw.deb", Path("/etc/default/srtpgw-ng"), Path("/var/log/srtpgw-ng/outcomes")
TOOLS, NG, PATIENCE = "/usr/share/srtpgw/tools", ("127.0.0.1", 2223), 60
RR = os.SCHED_RR
CLAIMS = []


def check(what, holds):
    CLAIMS.append(bool(holds))
    print(f"{'' if holds else 'NOT SO: '}{what}", flush=True)


def run(*words, **how):
    return subprocess.run(words, capture_output=True, text=True, timeout=PATIENCE * 2, **how)


def until(holds):
    end = time.monotonic() + PATIENCE
    while not (found := holds()) and time.monotonic() < end:
        time.sleep(0.1)
    return found


def shown(unit, name):
    return run("systemctl", "show", "--property", name, "--value", unit).stdout.strip()


def main_of(unit):
    return int(shown(unit, "MainPID") or 0)


def below(pid):
    """The gateway of a daemon."""
    try:
        return [int(child) for thread in Path(f"/proc/{pid}/task").iterdir() for child in (thread / "children").read_text().split()]
    except OSError:
        return []


def asked(body):
    with socket.socket(socket.AF_INET, socket.SOCK_DGRAM) as end:
        end.settimeout(2)
        end.sendto(b"1 " + body, NG)
        try:
            return end.recv(65_536).partition(b" ")[2]
        except OSError:
            return b""


def is_well():
    return asked(b"d7:command4:pinge") == b"d6:result4:ponge"


def status_of(pid):
    lines = Path(f"/proc/{pid}/status").read_text().splitlines()
    return dict(line.split(":\t", 1) for line in lines if ":\t" in line)


def began_anew(before):
    """Whether another daemon is there that answers."""
    return until(lambda: main_of("srtpgw-ng") not in (0, before) and shown("srtpgw-ng", "ActiveState") == "active" and is_well())


def installed():
    ran = run("dpkg", "-i", DEB)
    check(f"the package is installed{'' if ran.returncode == 0 else ': ' + ran.stdout + ran.stderr}", ran.returncode == 0)
    for unit in ("srtpgw", "srtpgw-ng"):
        exposed = run("systemd-analyze", "security", "--threshold=30", f"{unit}.service")
        check(f"{unit}.service: {exposed.stdout.strip().splitlines()[-1]}", exposed.returncode == 0)


def daemon():
    began = time.monotonic()
    ran = run("systemctl", "start", "srtpgw-ng")
    check(f"srtpgw-ng begins in {time.monotonic() - began:.1f} s{ran.stderr}", ran.returncode == 0 and is_well())
    pid = main_of("srtpgw-ng")
    pids = [pid, *below(pid)]
    check("with its gateway, each with a real-time priority", len(pids) == 2 and all(os.sched_getscheduler(one) == RR for one in pids))
    told = [status_of(one) for one in pids]
    check(f"as a user of its own: {told[0]['Uid'].split()[0]}", all(one["Uid"].split()[0] != "0" for one in told))
    check("without a capability", all(int(one["CapEff"], 16) == 0 == int(one["CapBnd"], 16) for one in told))
    check("behind a filter of system calls", all(one["Seccomp"] == "2" for one in told))
    check("it answers statistics", b"statistics" in asked(b"d7:command10:statisticse"))
    run("systemctl", "kill", "-s", "USR1", "srtpgw-ng")
    check("USR1 to all its processes: drained, and there again", began_anew(pid))
    check("it ended with 0", "status=" not in run("journalctl", "-u", "srtpgw-ng", "--grep", "exited, code=exited").stdout)
    pid = main_of("srtpgw-ng")
    os.kill(pid, signal.SIGKILL)
    check("killed: there again", began_anew(pid))
    pid = main_of("srtpgw-ng")
    gateway = below(pid)
    os.kill(gateway[0], signal.SIGKILL)
    check("its gateway killed: another one", until(lambda: below(pid) not in ([], gateway)) and main_of("srtpgw-ng") == pid)


def settings():
    options = f"--log-format json --metrics 127.0.0.1:9123 --outcomes {OUTCOMES} --calls /run/srtpgw-ng/calls"
    DEFAULTS.write_text(f'SRTPGW_NG_OPTIONS="{options}"\n')
    check("with options of its file", run("systemctl", "restart", "srtpgw-ng").returncode == 0 and until(is_well))
    with urllib.request.urlopen("http://127.0.0.1:9123/metrics", timeout=30) as answer:
        check("metrics", "srtpgw_up 1" in answer.read().decode())
    check("a log in JSON", '"message": "answers NG requests' in run("journalctl", "-u", "srtpgw-ng", "-o", "cat").stdout)
    OUTCOMES.rename(f"{OUTCOMES}.moved")
    run("systemctl", "reload", "srtpgw-ng")
    check("its log of outcomes is begun anew", until(OUTCOMES.exists))


def gateway():
    check("srtpgw begins", run("systemctl", "start", "srtpgw").returncode == 0)
    check("and srtpgw-ng has ended", until(lambda: shown("srtpgw-ng", "ActiveState") == "inactive"))
    sys.path.insert(0, TOOLS)
    from driver import Driver, Fifos
    for turn in ("a driver", "the next one"):
        driver = Driver(Fifos("/run/srtpgw/lines", "/run/srtpgw/outcomes"))
        pid = main_of("srtpgw")
        told = status_of(pid)
        check(f"{turn}: as a user of its own, at a real-time priority, without a capability",
              told["Uid"].split()[0] != "0" and os.sched_getscheduler(pid) == RR and int(told["CapEff"], 16) == 0)
        text = driver.offer_plain(1, b"v=0\r\no=- 1 1 IN IP4 127.0.0.1\r\ns=-\r\nc=IN IP4 127.0.0.1\r\nt=0 0\r\nm=audio 4000 RTP/AVP 0\r\n")
        key = base64.b64encode(os.urandom(30))
        back = driver.answer(1, text.split(b"a=crypto")[0].replace(b"m=audio 20000", b"m=audio 4010")
                             + b"a=crypto:1 AES_CM_128_HMAC_SHA1_80 inline:" + key + b"\r\n")
        check(f"{turn}: a call with keys", text.count(b"a=crypto:") == 2 and b"m=audio 20002 RTP/AVP 0" in back)
        driver.close()
        check(f"{turn} ends, and a process anew is there", until(lambda: main_of("srtpgw") not in (0, pid)))
    check("srtpgw is ended", run("systemctl", "stop", "srtpgw").returncode == 0)


def removed():
    ran = run("dpkg", "-P", "srtpgw")
    check(f"the package is removed{ran.stderr if ran.returncode else ''}", ran.returncode == 0)
    left = [path for path in ("/usr/bin/srtpgw", "/usr/bin/srtpgw-ng", TOOLS, DEFAULTS, "/lib/systemd/system/srtpgw.service",
                              "/lib/systemd/system/srtpgw-ng.service") if Path(path).exists()]
    check(f"nothing of it is left {left}", not left)


def main():
    system = run("systemctl", "--version").stdout.splitlines()[0]
    print(f"{system}, load {os.getloadavg()[0]:.1f}")
    for part in (installed, daemon, settings, gateway, removed):
        try:
            part()
        except Exception as fault:
            check(f"{part.__name__}: {type(fault).__name__}: {fault}", False)
    print(f"booted: {len(CLAIMS)} looked at, {CLAIMS.count(False)} are otherwise")
    if not all(CLAIMS):
        print(run("journalctl", "-u", "srtpgw-ng", "-u", "srtpgw", "--no-pager", "-n", "60").stdout)
    return not all(CLAIMS)


if __name__ == "__main__":
    sys.exit(main())
