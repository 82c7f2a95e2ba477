"""The sentence of docs/refusals.md for an outcome, a refusal or an exit status: one text for the driver's log, the NG
daemon's errors and the tools.

    sentence("refused 7 KeyReused 3")   # "call 7 refused (KeyReused 3): a key of this signal is the one that .."
    refusal("KeyReused 3")              # of a cause alone, as `driver.Refused` carries it
    status(5)                           # of a process that has ended
    meaning("KeyReused 3"), advice("KeyReused 3")

The page is read once, from the repository that this file stands in, so no sentence stands twice. `meaning` and `advice`
raise Missing where the page hasn't the name; sentences say so, so that no log ends for it. Needs Python 3.8 alone.
"""

import functools
import re
from pathlib import Path

PAGE = Path(__file__).resolve().parent.parent / "docs" / "refusals.md"
# The heading of each table, and what its names are names of.
TABLES = {
    "Dropped datagrams": "drop", "Refused signals": "refused", "Refusals of the driver's own": "refused",
    "Faults that a refusal names": "fault", "Other lines": "line", "The end of a run": "status",
}

# Refusals that name a fault.
FAULTY = ("Sdp", "Sdes", "Mikey", "Psk", "Cs")


class Missing(Exception):
    """The page has no such table or no such name."""


@functools.lru_cache(maxsize=None)
def page(path=PAGE):
    """What the page says: (table, name) to (meaning, advice)."""
    said, kind = {}, None
    try:
        lines = Path(path).read_text(encoding="utf-8").splitlines()
    except OSError as fault:
        raise Missing(f"{path} can't be read: {fault.strerror}") from None
    for line in lines:
        if line.startswith("#"):
            kind = TABLES.get(line.lstrip("# "))
        elif kind and line.startswith("| ") and line.count("|") == 4:
            name, means, do = (cell.strip() for cell in line.strip("| ").split(" | "))
            said[kind, re.split(", with |,? `", name)[0].strip()] = (means, do.rstrip("."))
    missing = set(TABLES.values()) - {kind for kind, _ in said}
    if missing:
        raise Missing(f"{path} has no table of {', '.join(sorted(missing))}")
    return said


def found(kind, *names):
    """The entry of the first name that the page has."""
    for name in names:
        if (kind, name) in page():
            return page()[kind, name]
    raise Missing(f"{PAGE.name} says nothing of {names[-1]}")


def entry(cause, kind="refused"):
    """Meaning and advice of a cause with its numbers, by the fault that it names where it names one."""
    name, *rest = cause.split() or [""]
    faults = [f"{name} {word}" for word in rest if not word.lstrip("-").isdigit()]
    if kind == "refused" and faults and name in FAULTY:
        return found("fault", *faults)
    return found(kind, name.rstrip(":"))


def meaning(cause, kind="refused"):
    """What a cause means. The kind is `refused` or `drop`."""
    return entry(cause, kind)[0]


def advice(cause, kind="refused"):
    """What to look at, and what to do."""
    return entry(cause, kind)[1]


def place(cause):
    """Where a refusal's fault is: the line of a text, the medium of a message."""
    words = cause.split()
    if len(words) < 2 or not words[1].isdigit():
        return ""
    if words[0] == "Sdp":
        return f" at line {words[1]}" if words[1] != "0" else " in the whole text"
    if words[0] in (*FAULTY, "KeyMgmt"):
        return " in the session part" if words[1] == "255" else f" in medium {words[1]}"
    return ""


def worded(kind, cause, advises):
    """A meaning, and the advice behind it where that is wanted. Of a cause that the page hasn't, that."""
    try:
        means, do = entry(cause, kind) if kind in ("refused", "drop") else found(kind, cause)
    except Missing as missing:
        return f"{missing}."
    return f"{means}. {do[:1].upper()}{do[1:]}." if advises else f"{means}."


def refusal(cause, advises=False):
    """The sentence of a refusal's cause, as `Sdes 0 NoLine`."""
    return f"refused ({cause}){place(cause)}: {worded('refused', cause, advises)}"


def status(number, said="", advises=True):
    """The sentence of a process that ended with a status, None where that isn't known, or by a signal of the system,
    below 0; what it said on standard error stands in it."""
    if number == 0:
        return "the gateway has ended: all lines were handled."
    said = f" ({said})" if said else ""
    if number is None or number < 0:
        return f"the gateway has ended{'' if number is None else f' by signal {-number} of the system'}{said}."
    return f"the gateway has ended with {number}{said}: {worded('status', str(number), advises)}"


def sentence(outcome, advises=False):
    """The sentence of an outcome, a line or its fields, with or without the page's advice. What tells of no fault is
    told shortly."""
    word, *rest = outcome.split() if isinstance(outcome, str) else map(str, outcome)
    if word == "refused":
        return f"{'a signal' if rest[0] == '-' else f'call {rest[0]}'} {refusal(' '.join(rest[1:]), advises)}"
    if word == "drop":
        cause = " ".join(rest[1:])
        return f"port {rest[0]} dropped a datagram ({cause}): {worded('drop', cause, advises)}"
    if word == "unsent":
        return f"port {rest[0]} couldn't send to {rest[1]}: {worded('line', 'unsent', advises)}"
    if word == "ended":
        return f"call {rest[0]} has ended ({rest[3]}): {worded('line', 'ended ' + rest[3], advises)}"
    if word == "lost":
        cause = " ".join(rest[1:])
        return f"at port {rest[0]} a packet of a joined call was lost ({cause}): {worded('drop', cause, advises)}"
    if word == "unjoined":
        cause = " ".join(rest[1:])
        return f"call {rest[0]} isn't joined or parted ({cause}): {worded('line', 'unjoined ' + rest[1], advises)}"
    if word == "skip":
        return f"record {rest[0]} of the capture is skipped ({rest[1]}): {worded('line', 'skip ' + rest[1], advises)}"
    short = {"made": "call {} is there, in slot {}", "live": "call {} is live", "sdp": "a text of call {} for the {} side",
             "out": "port {} put a packet out", "joined": "calls {} and {} are joined",
             "parted": "calls {} and {} are parted"}
    if word not in short:
        raise Missing(f"{word} is no outcome")
    return short[word].format(*rest) + "."
