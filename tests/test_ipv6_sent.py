"""UDP over IPv6: what a mote sends, in each form of RFC 6282, and as a root with a prefix of its own. All bytes are written by hand, from
the RFCs."""

import re
from pathlib import Path

import pytest

from contiki_programs import STRICT, Contiki
from ipv6_runs import OWN, frames_of, run_network, serial, text_of
from test_ipv6_frames import ALL_RPL_NODES, checksum, dio, far, icmp, link, near, sent, to_all

PORTS = "03e80fa0"
OTHER = "20010db8000000000000000000000007"
# Compressed by RFC 6282, section 4.2, and followed by UDP: a hop-by-hop header of 6 bytes, with the RPL option of RFC 6553, rank 256.
UP = "e1" "06" "63040000" "0100"


def group(content: str) -> str:
    """What mote 2 sends to all, without the sequence number."""
    return "41e8" "cdabffff" + link(2) + content


# What mote 2 of mote 9's network is to send, as tests/c/contiki/ipv6/sends.c reads it, and the frame's headers before UDP's checksum. Then
# the packet's addresses and ports.
SENT = {
    "3.1.1 hop limit 64 and a receiver of the link": (
        "64 1000 4000 fe80::209:9:9:9", sent("7e33" "f0" + PORTS, 9, 2), near(2), near(9), PORTS),
    "3.1.1 hop limit 1": ("1 1000 4000 fe80::209:9:9:9", sent("7d33" "f0" + PORTS, 9, 2), near(2), near(9), PORTS),
    "3.1.1 hop limit 255": ("255 1000 4000 fe80::209:9:9:9", sent("7f33" "f0" + PORTS, 9, 2), near(2), near(9), PORTS),
    "3.1.1 hop limit 9": ("9 1000 4000 fe80::209:9:9:9", sent("7c33" "09" "f0" + PORTS, 9, 2), near(2), near(9), PORTS),
    "3.1.1 addresses by context 0": ("64 1000 4000 fd00::209:9:9:9", sent("7e77" + UP + "f0" + PORTS, 9, 2), far(2), far(9), PORTS),
    "3.1.1 a receiver of 16 bits by context 0": (
        "64 1000 4000 fd00::ff:fe00:1234", sent("7e76" "1234" + UP + "f0" + PORTS, 9, 2), far(2), "fd00000000000000" "000000fffe001234",
        PORTS),
    "3.1.1 a receiver of 64 bits by context 0": (
        "64 1000 4000 fd00::1:2:3:4", sent("7e75" "0001000200030004" + UP + "f0" + PORTS, 9, 2), far(2),
        "fd00000000000000" "0001000200030004", PORTS),
    "3.1.1 a receiver of 128 bits": ("64 1000 4000 2001:db8::7", sent("7e70" + OTHER + UP + "f0" + PORTS, 9, 2), far(2), OTHER, PORTS),
    "3.2.3 a group in 8 bits": ("64 1000 4000 ff02::2", group("7e3b" "02" "f0" + PORTS), near(2), "ff02" + "00" * 13 + "02", PORTS),
    "3.2.3 a group in 32 bits": (
        "64 1000 4000 ff02::1:3", group("7e3a" "02010003" "f0" + PORTS), near(2), "ff02" + "00" * 11 + "010003", PORTS),
    "3.2.3 a group in 32 bits, for more than the link": (
        "64 1000 4000 ff05::2", group("7e7a" "05000002" "f0" + PORTS), far(2), "ff05" + "00" * 13 + "02", PORTS),
    "3.2.3 a group in 48 bits": (
        "64 1000 4000 ff02::1:2:3", group("7e39" "020100020003" "f0" + PORTS), near(2), "ff02" + "00" * 9 + "0100020003", PORTS),
    "3.2.3 a group in 128 bits": (
        "64 1000 4000 ff02::1:0:0:3", group("7e38" "ff02" "000000000000" "0001000000000003" "f0" + PORTS), near(2),
        "ff02" "000000000000" "0001000000000003", PORTS),
    "4.3.3 8 bits of the receiver's port": (
        "64 1000 61619 fe80::209:9:9:9", sent("7e33" "f1" "03e8" "b3", 9, 2), near(2), near(9), "03e8f0b3"),
    "4.3.3 8 bits of the sender's port": (
        "64 61672 4000 fe80::209:9:9:9", sent("7e33" "f2" "e8" "0fa0", 9, 2), near(2), near(9), "f0e80fa0"),
    "4.3.3 4 bits of both ports": ("64 61623 61619 fe80::209:9:9:9", sent("7e33" "f3" "73", 9, 2), near(2), near(9), "f0b7f0b3"),
}


def sent_after_lines(transcript: bytes) -> list[list[str]]:
    """What mote 2 sent after each line of its serial line, without the sequence numbers."""
    found: list[list[str]] = []
    for line in transcript.decode().splitlines():
        if line.startswith("2 > serial "):
            found.append([])
        elif is_sent := re.match(r"2 note sent (....)..(.*)", line):
            found[-1].append(is_sent[1] + is_sent[2])
    return found


@pytest.fixture(name="frames", scope="module")
def run_sends(toarmuts_library: Path, shared: Path, tmp_path_factory: pytest.TempPathFactory) -> list[list[str]]:
    joins = to_all(dio(240))
    script = f"2 frame {joins[:4]}01{joins[6:]}\n" + "".join(serial(2, line) for line, *_ in SENT.values())
    contiki = Contiki(toarmuts_library, shared / "contiki")
    ran = run_network(contiki, tmp_path_factory.mktemp("sent"), "mote 1..2 sends.c\n", [OWN / "sends.c"], script, "--sanitize")
    return sent_after_lines(ran.stdout)


@pytest.mark.parametrize("form", SENT)
def test_form(frames: list[list[str]], form: str) -> None:
    _, headers, source, destination, ports = SENT[form]
    packet = bytes.fromhex(ports) + b"\0\x09\0\0x"
    assert len(frames) == len(SENT)
    assert frames[list(SENT).index(form)] == [headers + checksum(source, destination, 17, packet).hex() + b"x".hex()]


# ---- A root with a prefix, and an end of its address, of its own ----

# The words that set these, the root's address, and that of mote 2, which has the same prefix.
ROOTS = {
    "root": ("fd00::201:1:1:1", "fd00::202:2:2:2"),
    "root prefix": ("2001:db8:0:7:201:1:1:1", "2001:db8:0:7:202:2:2:2"),
    "root end": ("fd00::1122:3344:5566:7788", "fd00::202:2:2:2"),
    "root prefix end": ("2001:db8:0:7:1122:3344:5566:7788", "2001:db8:0:7:202:2:2:2"),
}


@pytest.mark.parametrize("words", ROOTS)
def test_root(contiki: Contiki, tmp_path: Path, words: str) -> None:
    """The motes of the root's network have its prefix, and packets go both ways. The parent that mote 2 names to the root has the end of
    the root's link-layer address, since a mote knows no other one of its parent."""
    root, other = ROOTS[words]
    script = serial(1, "network") + serial(1, "repair") + serial(1, words) + serial(1, words) + "tick 3840\n" + "".join(
        serial(mote, line) for mote, line in [(1, "network"), (2, "network"), (1, "nodes"), (2, "nodes"), (2, "repair"), (2, "ask")]
    ) + "tick 8\n"
    lines = text_of(contiki, tmp_path, "mote 1..2 roots.c\nline 1..2 delay 1\n", [OWN / "roots.c"], script, *STRICT, "--sanitize")
    assert lines == [
        "1 root 0, joined 0, reachable 0, leaf 0", "1 started 0", "1 started 0",
        f"1 root 1, joined 1, reachable 1, leaf 0, of {root}",
        f"2 root 0, joined 1, reachable 1, leaf 0, of {root}, by 0001, fe80::201:1:1:1",
        f"1 0 0 nodes {root} 1 0 {other} 1 1", "2 0 0 nodes", f"1 ? from {other}", f"2 ! from {root}"]


def test_dio(contiki: Contiki, tmp_path: Path) -> None:
    """RFC 6550, sections 6.3.1 and 6.7.10: the DODAGID is the root's address, and the prefix its first 8 bytes. The sender is still the
    root's address of the link, by its link-layer address."""
    script = serial(1, "root prefix end") + "tick 600\n"
    frame = frames_of(run_network(contiki, tmp_path, "mote 1 roots.c\n", [OWN / "roots.c"], script).stdout)[0]
    prefix = "20010db800000007"
    body = "00f00080" "08f00000" + prefix + "1122334455667788" "040e" "00080c00" "0000" "0080" "0000" "001e003c" + \
        "081e4040" "ffffffff" "ffffffff" "00000000" + prefix + "0000000000000000"
    assert frame.data.hex() == "41e801cdabffff" + link(1) + "7a3b3a1a" + icmp(near(1), ALL_RPL_NODES, "9b01" + body)
