#!/usr/bin/env python3
"""Reads a btsnoop file with tshark and with btmon, and compares each packet with the file.

    compare.py FILE

For each record the direction, the kind of its packet, and the opcode of a command, the code of an
event or the handle of ACL data are compared with what each program makes of it. Records of which
less is kept than that are passed over. A program that is not installed is left out. Status 0: all
is the same; 1: something differs.
"""

import re
import shutil
import subprocess
import sys

FIELDS = [
    "frame.number",
    "hci_h4.direction",
    "hci_h4.type",
    "bthci_cmd.opcode",
    "bthci_evt.code",
    "bthci_acl.chandle",
]

# The first line that btmon writes of a packet: its way, its kind, its number, and its place.
COMMAND = re.compile(r"^([<>]) HCI Command: .*\(0x([0-9a-f]+)\|0x([0-9a-f]+)\).* #(\d+)")
EVENT = re.compile(r"^([<>]) HCI Event: .*\(0x([0-9a-f]+)\) plen .* #(\d+)")
DATA = re.compile(r"^([<>]) ACL Data [TR]X: Handle (\d+) .* #(\d+)")


def records(octets):
    """The flags and the included octets of each record."""
    place = 16
    while place < len(octets):
        included = int.from_bytes(octets[place + 4 : place + 8], "big")
        flags = int.from_bytes(octets[place + 8 : place + 12], "big")
        yield flags, octets[place + 24 : place + 24 + included]
        place += 24 + included


def from_file(flags, packet):
    """Direction, kind and number of a packet, or None where less of it is kept."""
    if len(packet) < 3:
        return None
    kind, low, high = packet[:3]
    number = {
        1: ("opcode", low | high << 8),
        2: ("handle", (low | high << 8) & 0x0FFF),
        4: ("code", low),
    }.get(kind, ("none", 0))
    return flags & 1, kind, number


def row_of_tshark(row):
    """The place of a packet, and the same of a row of fields."""
    place, direction, kind, opcode, code, handle = row.split("\t")
    kind = int(kind, 0)
    number = {
        1: ("opcode", opcode),
        2: ("handle", handle),
        4: ("code", code),
    }.get(kind, ("none", "0"))
    return int(place), (
        int(direction, 0),
        kind,
        (number[0], int(number[1].split(",")[0] or "-1", 0)),
    )


def from_tshark(name):
    """What tshark makes of each packet."""
    command = ["tshark", "-r", name, "-T", "fields", "-E", "separator=/t"]
    for field in FIELDS:
        command += ["-e", field]
    rows = subprocess.run(command, check=True, capture_output=True, text=True).stdout.splitlines()
    return dict(row_of_tshark(row) for row in rows)


def line_of_btmon(line):
    """The place of a packet and the same, of its first line; None for other lines."""
    if found := COMMAND.match(line):
        way, group, number, place = found.groups()
        said = 1, ("opcode", int(group, 16) << 10 | int(number, 16))
    elif found := EVENT.match(line):
        way, code, place = found.groups()
        said = 4, ("code", int(code, 16))
    elif found := DATA.match(line):
        way, handle, place = found.groups()
        said = 2, ("handle", int(handle))
    else:
        return None
    return int(place), (int(way == ">"), *said)


def from_btmon(name):
    """What btmon makes of each command, event and piece of ACL data."""
    run = subprocess.run(["btmon", "-r", name], check=True, capture_output=True)
    lines = run.stdout.decode(errors="replace").splitlines()
    return dict(found for found in map(line_of_btmon, lines) if found)


def differences(program, read, wanted):
    """How many packets the program reads otherwise; each is written."""
    count = 0
    for place, expected in enumerate(wanted, 1):
        if expected is not None and read.get(place) != expected:
            print(f"{program}: packet {place} is {expected} and was read as {read.get(place)}")
            count += 1
    return count


def main():
    if len(sys.argv) != 2:
        sys.exit("usage: compare.py FILE")
    with open(sys.argv[1], "rb") as file:
        wanted = [from_file(flags, packet) for flags, packet in records(file.read())]
    known = [it if it is None or it[1] in (1, 2, 4) else None for it in wanted]
    total = 0
    for program, read, packets in (("tshark", from_tshark, wanted), ("btmon", from_btmon, known)):
        if shutil.which(program) is None:
            print(f"{program} is not installed")
            continue
        count = differences(program, read(sys.argv[1]), packets)
        print(f"{program}: {len(packets)} packets, {count} differences")
        total += count
    sys.exit(1 if total else 0)


main()
