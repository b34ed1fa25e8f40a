"""What charts of networks call frames: frames written by hand from the standards, those of the examples with IPv6, and frames with changed
bytes, beside the package for Python, which reads frames by itself. tests/test_network_picture.py has the rest of charts."""
from __future__ import annotations

import json
import random
import re
import xml.etree.ElementTree as ElementTree
from dataclasses import dataclass
from typing import Iterable, Sequence

import pytest

from contiki_programs import Contiki
from ipv6_runs import CLIENT, IPV6, SERVER
from tools import ROOT, program, succeed

# A chart shows this number of rows.
ROWS = 1000
# Frames with changed bytes, in runs of 1,000.
RUNS = 12
# The first row is below.
TOP = 94
PYTHON = "/usr/bin/python3"
# Reads frames by the package: of each its kind, its words, of a fragment what those of its packet have in common, and where it is there.
READER = """import json, sys
from toarmuts.ipv6 import read_frame
for line in sys.stdin:
    it = read_frame(bytes.fromhex(line))
    part = it.fragment
    key = None if part is None else repr((it.sender, it.receiver, part.size, part.tag))
    print(json.dumps([it.kind.name, str(it), key, 0 if part is None else part.at]))
"""


def texts_of(chart: bytes) -> list[str]:
    """The words of a chart's rows."""
    texts = [it for it in ElementTree.fromstring(chart) if it.tag.endswith("text") and int(it.get("y") or 0) > TOP]
    return [it.text or "" for it in texts if (it.get("class") or "").split()[0] in ("n", "r")]


def drawn(transcript: str, *words: str) -> bytes:
    return succeed(program("network_picture"), *words, stdin=transcript.encode()).stdout


def sends(frames: Iterable[bytes]) -> str:
    """The transcript of a mote that sends these frames, one a tick."""
    return "".join(f"= {clock}\n1 note sent {frame.hex()}\n" for clock, frame in enumerate(frames, 1))


def to_one(to: int, sender: int) -> str:
    """The header of a frame from mote to mote (IEEE 802.15.4-2015, 7.2): version 2015, the receiver's PAN, long addresses."""
    return "21ec07cdab" + f"{to:02x}00" * 4 + f"{sender:02x}00" * 4


# To all: the short address ffff, and one PAN for both.
TO_ALL = "41e807cdabffff" + "0100" * 4
# IPHC: traffic class and flow label left out, the next header inline, hop limit 64, both addresses by context 0 and the link. ICMPv6 next.
ICMP = "7a77" "3a"
# The same with a compressed next header: UDP with all of both ports and a checksum.
UDP = "7e77" "f0" "223d" "162e" "5568"
ADDRESS = "fd00000000000000" "0201000100010001"
DIO = "9b01" "0000" "00" "f0" "0180" "08" "f0" "0000" + ADDRESS + "040e" "00" "08" "0c" "00" "0000" "0080" "0000" "00" "1e" "003c"
DAO = "9b02" "0000" "00" "c0" "00" "f1" + ADDRESS + "0512" "0080" + ADDRESS + "0614" "0000" "f1" "1e" + ADDRESS
# A whole header of IPv6: version 6, a length, a next header, hop limit 64, both addresses.
WHOLE = "41" "60000000" "{:04x}" "{:02x}" "40" + ADDRESS + ADDRESS
# RFC 6282, section 4.2: hop-by-hop with RPL's option, the next header compressed; a routing header (RFC 6554) of 22 bytes with two hops.
OPTIONS = "e1" "06" "6304" "0000" "0100"
ROUTE = "e3" "16" "03" "02" "99" "20" "0000" "03000300030003" "04000400040004" "0000"

NAMED = {
    "an enhanced acknowledgement": ("022c07cdab" "0200020002000200", "ack"),
    "DIS": (TO_ALL + "7a3b3a1a" "9b00" "0000" "0000", "DIS"),
    "DIO": (TO_ALL + "7a3b3a1a" + DIO, "DIO"),
    "DAO": (to_one(1, 3) + ICMP + DAO, "DAO"),
    "DAO-ACK": (to_one(3, 1) + ICMP + "9b03" "0000" "00" "00" "f1" "00", "DAO-ACK"),
    "an echo request": (to_one(1, 2) + ICMP + "8000" "0000" "0001" "0002" "68", "echo request"),
    "an echo reply": (to_one(1, 2) + ICMP + "8100" "0000" "0001" "0002" "68", "echo reply"),
    "unreachable": (to_one(1, 2) + ICMP + "0104" "0000" "00000000" "60", "ICMPv6 error: destination unreachable, code 4"),
    "too big": (to_one(1, 2) + ICMP + "0200" "0000" "00000500" "60", "ICMPv6 error: packet too big, code 0"),
    "time exceeded": (to_one(1, 2) + ICMP + "0301" "0000" "00000000" "60", "ICMPv6 error: time exceeded, code 1"),
    "a parameter": (to_one(1, 2) + ICMP + "0402" "0000" "00000028" "60", "ICMPv6 error: parameter problem, code 2"),
    "UDP": (to_one(1, 2) + UDP + "6869", "UDP 8765 -> 5678"),
    "UDP, its second port short": (to_one(1, 2) + "7e77" "f1" "223d" "2e" "5568" "6869", "UDP 8765 -> 61486"),
    "UDP, its first port short": (to_one(1, 2) + "7e77" "f2" "2e" "223d" "5568" "6869", "UDP 61486 -> 8765"),
    "UDP, both ports in a byte": (to_one(1, 2) + "7e77" "f3" "2e" "5568" "6869", "UDP 61618 -> 61630"),
    "UDP without a checksum": (to_one(1, 2) + "7e77" "f7" "2e", "UDP 61618 -> 61630"),
    "UDP after options and a route": (to_one(1, 2) + "7e77" + OPTIONS + ROUTE + UDP[4:] + "6869", "UDP 8765 -> 5678"),
    "UDP in a packet of the root": (to_one(1, 2) + "7e77" + "ee" + UDP, "UDP 8765 -> 5678"),
    "UDP whose header is whole": (to_one(1, 2) + "7a77" "11" "223d162e" "000a" "5568" "6869", "UDP 8765 -> 5678"),
    "a packet whose headers are whole": (to_one(1, 2) + WHOLE.format(10, 17) + "223d162e" "000a" "5568" "6869", "UDP 8765 -> 5678"),
    "whole options": (to_one(1, 2) + WHOLE.format(18, 0) + "1100" "6304" "0000" "0100" "223d162e" "000a" "5568" "6869", "UDP 8765 -> 5678"),
    "short addresses, a prefix inline": (
        "61a807cdab0100" "0200" "7a00" "3a" + ADDRESS + ADDRESS + "8000" "0000" "0001" "0002", "echo request"),
    "a fragment alone": (to_one(1, 2) + "e100" "0001" "0c" + "68" * 16, "fragment 1 of 1"),
}
UNNAMED = {
    "an immediate acknowledgement": "020007",
    "a data frame of NullNet": "418807cdabffff0100" "05",
    "no frame": "0a0b",
    "a beacon": "00c007cdab" "0100010001000100",
    "a secured frame": "09ec07cdab" + "0100" * 4 + "0200" * 4 + UDP,
    "a reserved version": "21fc07cdab" + "0100" * 4 + "0200" * 4 + UDP,
    "an acknowledgement with content": "022c07cdab" "0200020002000200" "00",
    "TCP": to_one(1, 2) + "7a77" "06" + "00" * 20,
    "a code of RPL that isn't known": to_one(1, 2) + ICMP + "9b04" "0000",
    "a DIO that is cut off": TO_ALL + "7a3b3a1a" + DIO[:20],
    "an option that is cut off": TO_ALL + "7a3b3a1a" + DIO + "0510",
    "a target that is too short": to_one(1, 3) + ICMP + DAO + "050100",
    "a transit of another length": to_one(1, 3) + ICMP + DAO + "0605" "0000000000",
    "an echo request that is cut off": to_one(1, 2) + ICMP + "8000" "0000" "0001",
    "UDP whose length is another one": to_one(1, 2) + "7a77" "11" "223d162e" "000b" "5568" "6869",
    "a packet whose length is another one": to_one(1, 2) + WHOLE.format(11, 17) + "223d162e" "000a" "5568" "6869",
    "a context that isn't known": to_one(1, 2) + "7ef7" "10" + UDP[4:],
    "a reserved mode": to_one(1, 2) + "7e74" + UDP[4:],
    "a group with a context": to_one(1, 2) + "7e7c" + "00" * 6 + UDP[4:],
    "an address of a link that has none": "011007" + UDP,
    "a header of fragments": to_one(1, 2) + "7e77" "e5" "06" + "00" * 6 + UDP[4:],
    "a route of another type": to_one(1, 2) + "7e77" + ROUTE.replace("160302", "160202") + UDP[4:],
    "a route with too many hops": to_one(1, 2) + "7e77" + ROUTE.replace("160302", "160304") + UDP[4:],
    "a fragment beyond its packet": to_one(1, 2) + "e010" "0001" "01" + "68" * 16,
    "a fragment of a broken length": to_one(1, 2) + "e100" "0001" "0c" + "68" * 15,
    "a mesh header": to_one(1, 2) + "b5" + UDP,
}


# What a row has of a frame without a name: its first bytes, or its text.
SHOWN = r"([0-9a-f]{2}( |$)|“)"


@pytest.mark.parametrize("name", NAMED)
def test_named_frames(name: str) -> None:
    """The row of a send and that of an arrival, and the arrow between them."""
    digits, wanted = NAMED[name]
    size = len(digits) // 2
    chart = drawn(f"mote 1..4 x.c\nline 1..4 delay 1\n1 note sent {digits}\n= 1\n2 > frame {digits}\n")
    assert texts_of(chart) == [f"sent {wanted}, {size} bytes", f"frame of {size}: {wanted}"]
    assert f"<title>{wanted} from mote 1 to mote 2: heard</title>".replace("->", "-&gt;").encode() in chart


@pytest.mark.parametrize("name", UNNAMED)
def test_unnamed_frames(name: str) -> None:
    """Their rows have bytes, as those of networks without IPv6."""
    digits = UNNAMED[name]
    chart = drawn(f"mote 1..4 x.c\nline 1..4 delay 1\n1 note sent {digits}\n= 1\n2 > frame {digits}\n")
    sent, heard = texts_of(chart)
    assert re.match(f"sent {SHOWN}", sent) and re.match(f"frame of {len(digits) // 2}: {SHOWN}", heard)
    assert b"<title>from mote 1 to mote 2: heard</title>" in chart


FIRST = "c100" "0001" + UDP + "68" * 8


def fragments(sender: int, tag: int, *places: int) -> list[bytes]:
    """Later fragments of a packet of 256 bytes."""
    return [bytes.fromhex(to_one(1, sender) + "e100" f"{tag:04x}" f"{place:02x}" + "68" * 16) for place in places]


def test_numbers_of_fragments() -> None:
    """Which one it is, by its position, of how many: fragments of another packet or sender don't count, and repeats count once."""
    first = bytes.fromhex(to_one(1, 2) + FIRST)
    frames = [*fragments(2, 1, 12, 7), first, *fragments(2, 1, 12), *fragments(2, 2, 20), *fragments(3, 1, 9, 7)]
    numbers = [(3, 3), (2, 3), (1, 3), (3, 3), (1, 1), (2, 2), (1, 2)]
    assert texts_of(drawn(sends(frames))) == [
        f"sent fragment {number} of {of}, {len(frame)} bytes" for frame, (number, of) in zip(frames, numbers)]


def test_a_fragment_that_was_not_sent() -> None:
    """An arrival of a fragment that no mote sent has no number."""
    frame = fragments(2, 1, 12)[0].hex()
    assert texts_of(drawn(f"1 > frame {frame}\n")) == [f"frame of {len(frame) // 2}: fragment from 96 on, of 256 bytes"]


def test_part_of_a_packet() -> None:
    """Where a part of a run is shown, a fragment has the number that it has in the whole run."""
    frames = [bytes.fromhex(to_one(1, 2) + FIRST), *fragments(2, 1, 7, 12)]
    assert texts_of(drawn(sends(frames), "--from", "2", "--to", "2")) == [f"sent fragment 2 of 3, {len(frames[1])} bytes"]


# ---- Beside the package for Python ----


@dataclass(frozen=True)
class Read:
    """What the package says of a frame."""

    kind: str
    words: str
    packet: str | None
    at: int


def read_all(frames: Sequence[bytes]) -> list[Read]:
    lines = "".join(f"{frame.hex()}\n" for frame in frames)
    ran = succeed(PYTHON, "-Bc", READER, stdin=lines.encode(), settings={"PYTHONPATH": str(ROOT / "python/src")})
    return [Read(*json.loads(line)) for line in ran.stdout.splitlines()]


def names_of(frames: Sequence[bytes]) -> list[str]:
    """What frames that are sent in one run are called; empty where a chart has their bytes."""
    read = read_all(frames)
    places: dict[str, set[int]] = {}
    for it in read:
        if it.packet is not None:
            places.setdefault(it.packet, set()).add(it.at)
    return [name_of(data, it, places) for data, it in zip(frames, read)]


def name_of(data: bytes, frame: Read, places: dict[str, set[int]]) -> str:
    # Of version 2006 is an acknowledgement that networks with NullNet have, too.
    if frame.kind in ("DATA", "OTHER") or frame.kind == "ACK" and data[1] >> 4 & 3 != 2:
        return ""
    if frame.packet is None:
        return frame.words
    of_packet = sorted(places[frame.packet])
    return f"fragment {of_packet.index(frame.at) + 1} of {len(of_packet)}"


def check_names(frames: Sequence[bytes]) -> None:
    """Compares the rows of a run in which these are sent."""
    for begin in range(0, len(frames), ROWS):
        part = frames[begin:begin + ROWS]
        shown = texts_of(drawn(sends(part)))
        assert len(shown) == len(part)
        for data, name, row in zip(part, names_of(part), shown):
            assert row == f"sent {name}, {len(data)} bytes" if name else re.match(f"sent {SHOWN}", row), data.hex()


def changed(chance: random.Random, frame: bytes) -> bytes:
    """A frame with up to three changes: a byte, a bit, a cut, bytes that are added or taken out."""
    data = bytearray(frame)
    for _ in range(chance.randint(1, 3)):
        at = chance.randrange(len(data)) if data else 0
        how = chance.randrange(5)
        if how == 0 and data:
            data[at] = chance.choice((0, 1, 3, 6, 17, 41, 43, 58, 60, 155, 0xee, 0xff, chance.randrange(256)))
        elif how == 1 and data:
            data[at] ^= 1 << chance.randrange(8)
        elif how == 2:
            del data[at:]
        elif how == 3:
            data[at:at] = chance.randbytes(chance.randint(1, 4))
        else:
            del data[at:at + chance.randint(1, 4)]
    return bytes(data[:127]) or b"\0"


def has_no_link(data: bytes) -> bool:
    """Whether it is a frame without a receiver. There the package reads a first fragment whose address is the link's."""
    return len(data) > 1 and data[1] >> 2 & 3 == 0


def test_changed_frames() -> None:
    """Frames of each kind with changed bytes: each has the name that the package gives it, or none."""
    chance = random.Random(15)
    kinds = [bytes.fromhex(digits) for digits, _ in NAMED.values()] + [bytes.fromhex(digits) for digits in UNNAMED.values()]
    kinds += [bytes.fromhex(to_one(1, 2) + it) for it in (FIRST, "c100" "0001" "7e77" + OPTIONS + ROUTE + UDP[4:] + "68" * 8)]
    frames = [changed(chance, chance.choice(kinds)) for _ in range(RUNS * ROWS)]
    check_names([frame for frame in frames if not has_no_link(frame)])


def test_random_bytes() -> None:
    """Bytes at random after each dispatch byte: nothing fails."""
    chance = random.Random(16)
    begins = [bytes.fromhex(to_one(1, 2)), bytes.fromhex(TO_ALL), b""]
    dispatches = [b"\x41", b"\x7e\x77", b"\x7a\x77", b"\xc1\0\0\1", b"\xe1\0\0\1\0", b"", b"\x7e\x77\xe1", b"\x7e\x77\xe3\x16"]
    frames = [(chance.choice(begins) + chance.choice(dispatches) + chance.randbytes(chance.randrange(100)))[:127] or b"\0"
              for _ in range(4 * ROWS)]
    check_names([frame for frame in frames if not has_no_link(frame)])


def frames_sent(transcript: bytes) -> list[bytes]:
    return [bytes.fromhex(digits) for digits in re.findall(r"^\d+ note sent ([0-9a-f]+)$", transcript.decode(), re.M)]


@pytest.mark.parametrize("name", ["rpl-udp", "talk", "readings", "events"])
def test_examples(contiki: Contiki, name: str) -> None:
    """Each frame of each example with IPv6 has a name, and the one that the package gives it."""
    sources = {"rpl-udp": [SERVER, CLIENT], "readings": [IPV6 / "sink.c", IPV6 / "sensor.c"]}.get(name, [IPV6 / f"{name}.c"])
    network = IPV6 / f"{name}.net"
    frames = frames_sent(contiki("--network", network, *sources, stdin=network.with_suffix(".script")).stdout)[:ROWS]
    assert frames and all(names_of(frames))
    check_names(frames)
