"""Runs of programs with UDP over IPv6: the frames of a transcript, as a capture, and what tshark says of them."""

import re
import struct
from dataclasses import dataclass
from pathlib import Path

from contiki_programs import SOURCES, Contiki
from tools import EXAMPLES, Completed, Word, output_of, succeed

IPV6 = EXAMPLES / "contiki/ipv6"
OWN = SOURCES / "ipv6"
SERVER, CLIENT = IPV6 / "udp-server.c", IPV6 / "udp-client.c"
SECOND = 128
# A capture's link type: frames of IEEE 802.15.4 without a checksum.
LINK_TYPE = 230
CONTEXT = ("-o", "6lowpan.context0:fd00::/64", "-o", "udp.check_checksum:TRUE")


@dataclass(frozen=True)
class Frame:
    """A frame that a mote sent."""

    tick: int
    mote: int
    data: bytes


def frames_of(transcript: bytes) -> list[Frame]:
    """The frames of a network's transcript, in the order in which they were sent."""
    tick, frames = 0, []
    for line in transcript.decode().splitlines():
        words = line.split()
        if words[0] == "=":
            tick = int(words[1])
        elif words[1:3] == ["note", "sent"]:
            frames.append(Frame(tick, int(words[0]), bytes.fromhex(words[3])))
    return frames


def write_capture(file: Path, frames: list[Frame]) -> Path:
    parts = [struct.pack("<IHHiIII", 0xA1B2C3D4, 2, 4, 0, 0, 65535, LINK_TYPE)]
    for frame in frames:
        seconds, ticks = divmod(frame.tick, SECOND)
        parts.append(struct.pack("<IIII", seconds, ticks * 1_000_000 // SECOND, len(frame.data), len(frame.data)) + frame.data)
    file.write_bytes(b"".join(parts))
    return file


def dissect(capture: Path, fields: list[str], *words: str) -> list[list[str]]:
    """The values of these fields, by tshark, for each frame. A field that a frame has several times is joined by commas."""
    ran = succeed("tshark", "-r", capture, *CONTEXT, *words, "-T", "fields", *(word for field in fields for word in ("-e", field)))
    return [line.split("\t") for line in ran.stdout.decode().splitlines()]


def run_network(contiki: Contiki, folder: Path, network: str, sources: list[Path], script: str, *words: Word) -> Completed:
    file = folder / "network.net"
    file.write_text(network, encoding="utf-8")
    ran = contiki("--network", file, *words, *sources, stdin=script.encode())
    assert (ran.returncode, ran.stderr) == (0, b""), output_of(ran)
    return ran


def text_of(contiki: Contiki, folder: Path, network: str, sources: list[Path], script: str, *words: Word) -> list[str]:
    return run_network(contiki, folder, network, sources, script, "--text", *words).stdout.decode().splitlines()


def serial(mote: int, line: str) -> str:
    """A line of a script: a mote's serial line receives this text."""
    return f"{mote} serial {(line + chr(10)).encode().hex()}\n"


@dataclass(frozen=True)
class Delivery:
    """The requests of rpl-udp: those sent, those that arrived, and those that were answered, each by mote and number."""

    sent: set[tuple[int, int]]
    arrived: set[tuple[int, int]]
    answered: set[tuple[int, int]]


SENT = re.compile(r"(\d+) \[INFO: App       \] Sending request (\d+) to fd00::201:1:1:1")
ARRIVED = re.compile(r"1 \[INFO: App       \] Received request 'hello (\d+)' from fd00::2[0-9a-f]{2}:([0-9a-f]+):\2:\2")
ANSWERED = re.compile(r"(\d+) \[INFO: App       \] Received response 'hello (\d+)' from fd00::201:1:1:1")


def delivery_of(lines: list[str]) -> Delivery:
    """What the programs of rpl-udp print, in a network where mote n is fd00::2xx:xx:xx:xx of its number."""
    sent, arrived, answered = set(), set(), set()
    for line in lines:
        if found := SENT.fullmatch(line):
            sent.add((int(found[1]), int(found[2])))
        elif found := ARRIVED.fullmatch(line):
            arrived.add((int(found[2], 16), int(found[1])))
        elif found := ANSWERED.fullmatch(line):
            answered.add((int(found[1]), int(found[2])))
    return Delivery(sent, arrived, answered)
