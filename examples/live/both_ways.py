"""A call with keys by hand in each suite of a media program, which is the telephone on the secure leg. Octets of
PCMU go both ways at once, over a wrap of sequence numbers.
"""

import signal
import subprocess
import tempfile
import time
from pathlib import Path

from ends import (
    End, Key, NEAR_WRAP, PLAIN, PLAIN_RTP, SECURE, is_bound, numbers_of, packets_of, payloads_of, program, require_free,
    speech, told, wait_until,
)
from driver import Driver

SECONDS = 8


def one_suite(driver, call, suite, name, sender, receiver, folder):
    """One call. `sender(file, key)` and `receiver(file, key)` are command lines."""
    there, back = speech(SECONDS, 2 * call), speech(SECONDS, 2 * call + 1)
    sent, written = folder / "there.ul", folder / "back.ul"
    sent.write_bytes(there)
    from_peer, to_peer = Key(suite), Key(suite)
    driver.manual(call, SECURE, PLAIN, from_peer.field(), to_peer.field())
    plain = End(PLAIN)
    receiving = subprocess.Popen(receiver(written, to_peer), stdout=subprocess.DEVNULL)
    try:
        wait_until(lambda: is_bound(SECURE[1]), what=f"{name}'s port")
        sending = subprocess.Popen(sender(sent, from_peer), stdout=subprocess.DEVNULL)
        plain.send(PLAIN_RTP, packets_of(back))
        sending.wait(timeout=60)
        time.sleep(1)
    finally:
        receiving.send_signal(signal.SIGINT)
        receiving.wait(timeout=20)
        plain.close()
    driver.bye(call)
    arrived = told(f"{suite}, {name} to plain", there, payloads_of(plain.packets), numbers_of(plain.packets))
    return told(f"{suite}, plain to {name}", back, written.read_bytes()) and arrived


def both_ways(name, suites, sender, receiver):
    """All suites, one call each. The number to end with."""
    require_free()
    print(f"{SECONDS} seconds each way, the first number {NEAR_WRAP}", flush=True)
    driver = Driver(program())
    with tempfile.TemporaryDirectory() as folder:
        good = [
            one_suite(driver, call, suite, name, sender, receiver, Path(folder)) for call, suite in enumerate(suites, 1)
        ]
    status = driver.close()
    print(f"dropped {dict(driver.drops)}, unsent {dict(driver.unsent)}, status {status}")
    return 0 if all(good) and status == 0 else 1
