"""A model of the whole gateway, written from the rules' text over the writers of packets and of messages beside it.

It keeps every list whole and decides each event by the rules alone: `scripts.py` reads the lines of a script,
`texts.py` session descriptions, `crypto.py` crypto lines, `messages.py` MIKEY messages; `sessions.py` opens and
seals packets; `world.py` has the calls, `replay.py` what a replay of a script writes and how it ends, `migration.py`
what a migration does, `captures.py` what captured datagrams behind a script tell, `muxed.py` what a run with `--mux`
tells, and `bridged.py` what a bridge tells. Nothing here is of srtpgw, and srtpgw has nothing of this.
"""
from . import bridged, captures, migration, muxed, replay

# What each command that a script alone decides writes, and how it ends.
TOLD = {
    "replay": replay.Told, "replay --mux": muxed.Told, "bridge": bridged.Told, "migrate": migration.Told,
    "capture": captures.Told,
}
