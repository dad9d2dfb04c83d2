#!/usr/bin/env python3
"""Measures how fast packets are shown, with all that stands under them, beside tshark.

    speed.py BTPUSH [LIMIT]

The packets of a link are repeated up to a btsnoop file of LIMIT octets, 60 million where none is given,
with data of 1,000 octets, and of a quarter of that where packets are small, as signals are, and all with
data of 20 octets: tshark takes long for these. They go over channels of all kinds: signalling,
service discovery, RFCOMM, one in enhanced retransmission mode that carries objects, and one of data; and once
more for each kind alone. tshark and `decode --snoop` show that file, `decode` the same packets as a stream,
and `decode --tagged` the same packets as a capture of host a, and then as one of host b, whose objects it
tells. What is taken is processor time, of user and system together, so that other work on the machine counts
for little; of three runs of each the shortest counts, and a run that takes more than 20 seconds is ended.
"""

import os
import resource
import struct
import subprocess
import sys
import tempfile

HEADER = b"btsnoop\0" + struct.pack(">II", 1, 1002)
FIRST_TIME = 0x00E03AB44A676000
ENHANCED = 3

# The most processor time that a run is given, in seconds.
MOST_TIME = 20


def table_of(divisor):
    """At each octet what is left of it, lowest bit first."""
    values = []
    for value in range(256):
        for _ in range(8):
            value = (value >> 1) ^ (divisor if value & 1 else 0)
        values.append(value)
    return values


CHECK_WORDS = table_of(0xA001)
RESTS = table_of(0xE0)


def with_check_word(octets):
    word = 0
    for octet in octets:
        word = (word >> 8) ^ CHECK_WORDS[(word ^ octet) & 0xFF]
    return octets + struct.pack("<H", word)


def with_rest(octets, behind=b""):
    rest = 0xFF
    for octet in octets:
        rest = RESTS[rest ^ octet]
    return octets + behind + bytes([rest ^ 0xFF])


def record(place, flags, packet):
    return struct.pack(">IIIIQ", len(packet), len(packet), flags, 0, FIRST_TIME + place) + packet


def acl(incoming, pdu):
    return (1 if incoming else 0), struct.pack("<BHH", 2, 0x2001 if incoming else 0x0001, len(pdu)) + pdu


def pdu(channel, payload):
    return struct.pack("<HH", len(payload), channel) + payload


def signal(code, identifier, payload):
    return pdu(1, struct.pack("<BBH", code, identifier, len(payload)) + payload)


def frame(channel, control, payload):
    """A frame of enhanced retransmission mode."""
    return with_check_word(struct.pack("<HHH", len(payload) + 4, channel, control) + payload)


def opened(psm, own, peer, identifier, mode=None):
    """A channel that the host's peer asks for and both configure."""
    options = b"" if mode is None else struct.pack("<BBBBBHHH", 4, 9, mode, 32, 3, 2000, 12000, 65535)
    yield acl(True, signal(2, identifier, struct.pack("<HH", psm, peer)))
    yield acl(False, signal(3, identifier, struct.pack("<HHHH", own, peer, 0, 0)))
    yield acl(True, signal(4, identifier, struct.pack("<HH", own, 0) + options))
    yield acl(False, signal(5, identifier, struct.pack("<HHH", peer, 0, 0) + options))
    yield acl(False, signal(4, identifier, struct.pack("<HH", peer, 0) + options))
    yield acl(True, signal(5, identifier, struct.pack("<HHH", own, 0, 0) + options))


def begin():
    """A link that the host's peer asks for, its channels, and the user channel 18 of RFCOMM."""
    yield 2, bytes.fromhex("01030C00")
    yield 3, bytes.fromhex("040E0401030C00")
    yield 3, bytes.fromhex("04040A") + bytes(9) + b"\1"
    yield 2, bytes.fromhex("01090407") + bytes(6) + b"\1"
    yield 3, bytes.fromhex("04030B000100") + bytes(6) + b"\1\0"
    yield from opened(0x0001, 0x0040, 0x0050, 1)
    yield from opened(0x0003, 0x0041, 0x0051, 2)
    yield from opened(0x1001, 0x0042, 0x0052, 3, ENHANCED)
    yield from opened(0x1003, 0x0043, 0x0053, 4)
    for channel in (0x03, 0x4B):
        yield acl(True, pdu(0x0041, with_rest(bytes([channel, 0x3F, 0x01]))))
        yield acl(False, pdu(0x0051, with_rest(bytes([channel, 0x73, 0x01]))))


def signals(turn, data):
    yield acl(False, signal(8, 1, b"\0\1"))
    yield acl(True, signal(9, 1, b"\0\1"))
    yield 3, bytes.fromhex("0413050101000100")


def discovery(turn, data):
    yield acl(True, pdu(0x0040, struct.pack(">BHH", 6, turn % 65536, len(data)) + data))
    yield acl(False, pdu(0x0050, struct.pack(">BHH", 7, turn % 65536, len(data)) + data))


def multiplexed(turn, data):
    length = bytes([2 * len(data) + 1]) if len(data) < 128 else struct.pack("<H", 2 * len(data))
    yield acl(True, pdu(0x0041, with_rest(b"\x4B\xEF", length + data)))
    yield acl(False, pdu(0x0051, with_rest(b"\x49\xEF", length + data)))


def retransmitted(turn, data):
    """An object of that data in one PUT, its answer, and what acknowledges that."""
    headers = bytes.fromhex("0100070061000049") + struct.pack(">H", len(data) + 3) + data
    put = b"\x82" + struct.pack(">H", len(headers) + 3) + headers
    sent, next_one = turn % 64, (turn + 1) % 64
    yield acl(True, frame(0x0042, 2 * sent + 256 * sent, put))
    yield acl(False, frame(0x0052, 2 * sent + 256 * next_one, b"\xA0\0\3"))
    yield acl(True, frame(0x0042, 1 + 256 * next_one, b""))


def plain(turn, data):
    yield acl(False, pdu(0x0053, data))
    yield acl(True, pdu(0x0043, data[: len(data) // 2]))


KINDS = {
    "sig": signals,
    "sdp": discovery,
    "rfcomm": multiplexed,
    "ertm": retransmitted,
    "data": plain,
}


def link_of(kinds, size, limit):
    """Packets with their flags whose records have about that many octets."""
    data = bytes(place % 251 for place in range(size))
    # All that counts in an enhanced channel comes round after 64 turns, so they are made once.
    turns = [[one for kind in kinds for one in kind(turn, data)] for turn in range(64)]
    some = [one for turn in turns for one in turn]
    return [*begin(), *some * max(1, limit // sum(24 + len(packet) for _, packet in some))]


def file_of(link):
    records = (record(place, flags, packet) for place, (flags, packet) in enumerate(link))
    return HEADER + b"".join(records)


def stream_of(link):
    return b"".join(packet for _, packet in link)


def capture_of(link, tag):
    """The capture of the host whose packets have that tag where they go out."""
    return b"".join(
        struct.pack(">BH", tag + (flags & 1), len(packet)) + packet for flags, packet in link
    )


def bounded():
    resource.setrlimit(resource.RLIMIT_CPU, (MOST_TIME, MOST_TIME))


def taken(command, name):
    """The processor time of the shortest of three runs on the file. Where one takes more than a run is given, it is
    ended there, and no other follows."""
    times = []
    for _ in range(3):
        with open(name, "rb") as file, open(os.devnull, "wb") as sink:
            run = subprocess.Popen(command, stdin=file, stdout=sink, stderr=subprocess.DEVNULL, preexec_fn=bounded)
            _, status, usage = os.wait4(run.pid, 0)
            run.returncode = os.waitstatus_to_exitcode(status)
        if run.returncode < 0 and usage.ru_utime + usage.ru_stime >= MOST_TIME - 1:
            return MOST_TIME
        if run.returncode != 0:
            sys.exit(f"{' '.join(command)} ended with {run.returncode}")
        times.append(usage.ru_utime + usage.ru_stime)
    return min(times)


def taken_by(octets, command):
    """The same on these octets; the name of their file is the last word where the command ends with None."""
    with tempfile.NamedTemporaryFile(suffix=".btsnoop") as file:
        file.write(octets)
        file.flush()
        return taken([file.name if word is None else word for word in command], file.name)


def measure(btpush, name, kinds, size, limit):
    link = link_of(kinds, size, limit)
    file = file_of(link)
    theirs = taken_by(file, ["tshark", "-r", None])
    print(f"{name}, data of {size} octets: {len(link)} packets, {len(file)} octets: tshark {theirs:.2f} s")
    for form, words, octets in (
        ("decode --snoop", ["--snoop"], file),
        ("decode", [], stream_of(link)),
        ("decode --tagged, host a", ["--tagged"], capture_of(link, 1)),
        ("decode --tagged, host b", ["--tagged"], capture_of(link, 3)),
    ):
        ours = taken_by(octets, [btpush, "decode", *words])
        told = f"{ours:.3f} s, {theirs / ours:.1f} times" if ours < MOST_TIME else f"more than {MOST_TIME} s"
        print(f"    {form} {told}", flush=True)


def main():
    if len(sys.argv) not in (2, 3):
        sys.exit("usage: speed.py BTPUSH [LIMIT]")
    btpush = os.path.realpath(sys.argv[1])
    limit = int(sys.argv[2]) if len(sys.argv) == 3 else 60_000_000
    for size in (1000, 20):
        most = limit if size == 1000 else limit // 4
        measure(btpush, "all kinds", list(KINDS.values()), size, most)
        for name, kind in KINDS.items():
            measure(btpush, name, [kind], size, limit // 4 if name == "sig" else most)


main()
