#!/usr/bin/env python3
"""Looks how much memory `decode` takes where many links are seen and nothing comes on them.

    memory.py BTPUSH [ROUNDS]

ACL packets without octets go both ways on all 3,840 handles, some rounds of them, four where no number is given: as a
stream, as a btsnoop file, and as the captures of host a and of host b. It fails where a run takes 64 MiB or more.
"""

import os
import struct
import subprocess
import sys
import tempfile

HANDLES = 0x0F00
HEADER = b"btsnoop\0" + struct.pack(">II", 1, 1002)
MOST = 64 * 1024


def packets(rounds):
    """Which way each packet goes, 1 for into the host, and its octets."""
    for _ in range(rounds):
        for handle in range(HANDLES):
            for incoming in (0, 1):
                yield incoming, struct.pack("<BHH", 2, handle | (0x2000 if incoming else 0), 0)


def stream(rounds):
    return b"".join(packet for _, packet in packets(rounds))


def file(rounds):
    records = (struct.pack(">IIIIQ", len(one), len(one), way, 0, 0) + one for way, one in packets(rounds))
    return HEADER + b"".join(records)


def capture(rounds, tag):
    return b"".join(struct.pack(">BH", tag + way, len(one)) + one for way, one in packets(rounds))


def taken(command, octets):
    """The most memory that the run held at once, in KiB."""
    with tempfile.TemporaryFile() as source, open(os.devnull, "wb") as sink:
        source.write(octets)
        source.seek(0)
        run = subprocess.Popen(command, stdin=source, stdout=sink)
        _, status, usage = os.wait4(run.pid, 0)
        run.returncode = os.waitstatus_to_exitcode(status)
    if run.returncode != 0:
        sys.exit(f"{' '.join(command)} ended with {run.returncode}")
    return usage.ru_maxrss


def main():
    if len(sys.argv) not in (2, 3):
        sys.exit("usage: memory.py BTPUSH [ROUNDS]")
    btpush = os.path.realpath(sys.argv[1])
    rounds = int(sys.argv[2]) if len(sys.argv) == 3 else 4
    worst = 0
    for form, words, octets in (
        ("decode", [], stream(rounds)),
        ("decode --snoop", ["--snoop"], file(rounds)),
        ("decode --tagged, host a", ["--tagged"], capture(rounds, 1)),
        ("decode --tagged, host b", ["--tagged"], capture(rounds, 3)),
    ):
        held = taken([btpush, "decode", *words], octets)
        print(f"{form}: {held / 1024:.1f} MiB", flush=True)
        worst = max(worst, held)
    sys.exit(worst >= MOST)


main()
