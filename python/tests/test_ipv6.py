"""Frames of IPv6: bytes written by hand from the standards, transcripts written by hand, and the examples in C."""
import random
import shutil
import subprocess
import sys
import types
from ipaddress import IPv6Address

import pytest
from common import ROOT

import toarmuts
from toarmuts import Network, NetworkTranscript, WrongType, ipv6
from toarmuts.ipv6 import (Dao, DaoAck, Delivery, Dio, FrameKind, MissingPackage, Route, deliveries, mote_of, parents, read_frame,
                           read_frames)

IPV6 = ROOT / "examples/contiki/ipv6"
LIBRARIES = [ROOT / "crates/toarmuts/out" / name for name in ("libtoarmuts.a", "unproved/libtoarmuts.a")]


def header(to, sender, sequence=7):
    """Of a frame from mote to mote (IEEE 802.15.4-2015, 7.2): data that asks for an acknowledgement, the receiver's PAN, long addresses
    with their low byte first."""
    return f"21ec{sequence:02x}cdab" + f"{to:02x}00" * 4 + f"{sender:02x}00" * 4


def to_all(sender, sequence=7):
    """Of a frame to all: the short address ffff, and one PAN for both."""
    return f"41e8{sequence:02x}cdabffff" + f"{sender:02x}00" * 4


def address(mote):
    """A mote's global address."""
    return IPv6Address(f"fd00::{0x200 + mote:x}:{mote:x}:{mote:x}:{mote:x}")


def plain(mote):
    return address(mote).packed.hex()


# IPHC: traffic class and flow label left out, the next header inline, hop limit 64; both addresses of context 0, by the link.
MESSAGE = "7a77" "3a"
# The same with a compressed next header.
NEXT = "7e77"
DIO = "9b01" "0000" "00" "f0" "0180" "08" "f0" "0000" + plain(1) + "040e" "00" "08" "0c" "00" "0000" "0080" "0000" "00" "1e" "003c"
DAO = "9b02" "0000" "00" "c0" "00" "f1" + plain(1) + "0512" "0080" + plain(3) + "0614" "0000" "f1" "1e" + plain(2)
UDP = "f0" "223d" "162e" "5568"


def read(*texts):
    return read_frame(bytes.fromhex("".join(texts)))


@pytest.mark.parametrize("text, kind, words", [
    ("022c07cdab" "0200020002000200", FrameKind.ACK, "ack"),
    ("020007", FrameKind.ACK, "ack"),
    ("418807cdabffff0100" "05", FrameKind.DATA, "data frame"),
    (to_all(1) + "7a3b3a1a" "9b00" "0000" "0000", FrameKind.DIS, "DIS"),
    (to_all(1) + "7a3b3a1a" + DIO, FrameKind.DIO, "DIO"),
    (header(1, 3) + MESSAGE + DAO, FrameKind.DAO, "DAO"),
    (header(3, 1) + MESSAGE + "9b03" "0000" "00" "00" "f1" "00", FrameKind.DAO_ACK, "DAO-ACK"),
    (header(1, 2) + MESSAGE + "8000" "0000" "0001" "0002" "68", FrameKind.ECHO_REQUEST, "echo request"),
    (header(1, 2) + MESSAGE + "8100" "0000" "0001" "0002" "68", FrameKind.ECHO_REPLY, "echo reply"),
    (header(1, 2) + MESSAGE + "0100" "0000" "00000000" "60", FrameKind.ERROR, "ICMPv6 error: destination unreachable, code 0"),
    (header(1, 2) + MESSAGE + "0301" "0000" "00000000" "60", FrameKind.ERROR, "ICMPv6 error: time exceeded, code 1"),
    (header(1, 2) + NEXT + UDP + "68", FrameKind.UDP, "UDP 8765 -> 5678"),
    (header(1, 2) + "c100" "0001" + NEXT + UDP + "68" * 8, FrameKind.FRAGMENT, "fragment from 0 on, of 256 bytes"),
    (header(1, 2) + "e100" "0001" "0c" + "68" * 16, FrameKind.FRAGMENT, "fragment from 96 on, of 256 bytes"),
    (header(1, 2) + MESSAGE + "9b04" "0000", FrameKind.OTHER, "other"),
    (header(1, 2) + MESSAGE[:4] + "06" + "00" * 20, FrameKind.OTHER, "other"),
])
def test_each_kind(text, kind, words):
    frame = read(text)
    assert (frame.kind, str(frame), frame.sequence) == (kind, words, 7)


def test_link():
    """An acknowledgement has the address of whom it is for, an immediate one none; short addresses have two bytes."""
    assert read("022c07cdab", "0200020002000200").receiver == bytes.fromhex("0002" * 4) and read("020007").receiver is None
    frame = read("418807cdabffff0100", "05")
    assert (frame.receiver, frame.sender, frame.payload) == (ipv6.TO_ALL, b"\0\1", b"\5")
    frame = read(header(1, 2), NEXT, UDP)
    assert (mote_of(frame.receiver), mote_of(frame.sender), mote_of(frame.source), mote_of(frame.destination)) == (1, 2, 2, 1)
    assert mote_of(ipv6.TO_ALL) is None and mote_of(IPv6Address("2001:db8::201:1:1:1")) is None
    assert mote_of(IPv6Address("fd00::302:102:102:102")) == 258 and mote_of(bytes.fromhex("0102" * 4)) == 258
    with pytest.raises(WrongType, match="an address must be an IPv6Address or bytes, not int"):
        mote_of(1)


def test_rpl():
    dio = read(to_all(1), "7a3b3a1a", DIO)
    assert dio.rpl == Dio(0, 0xf0, 0x180, 1, address(1)) and dio.destination == IPv6Address("ff02::1a")
    assert (dio.source, dio.hop_limit, dio.icmp) == (IPv6Address("fe80::201:1:1:1"), 64, (155, 1))
    dao = read(header(1, 3), MESSAGE, DAO)
    assert dao.rpl == Dao(0, 0xf1, True, (Route(address(3), address(2), 30),)) and dao.icmp == (155, 2)
    assert read(header(3, 1), MESSAGE, "9b03", "0000", "00", "00", "f1", "80").rpl == DaoAck(0, 0xf1, 128)


def test_targets_of_a_dao():
    """The transit information is about all targets before it (RFC 6550, 6.7.8). A prefix, and a parent that isn't told."""
    options = "0512" "0080" + plain(3) + "0512" "0080" + plain(4) + "00" "0604" "0000" "f1" "00" + "050a" "0040" "fd00000000000000"
    assert read(header(1, 3), MESSAGE, "9b02", "0000", "00", "00", "00", "f1", options).rpl.routes == (
        Route(address(3), None, 0), Route(address(4), None, 0))


@pytest.mark.parametrize("text, ports", [
    ("f0" "223d" "162e" "5568", (8765, 5678)),
    ("f1" "223d" "2e" "5568", (8765, 0xf02e)),
    ("f2" "2e" "223d" "5568", (0xf02e, 8765)),
    ("f3" "2e" "5568", (0xf0b2, 0xf0be)),
    ("f7" "2e", (0xf0b2, 0xf0be)),
])
def test_ports(text, ports):
    """The four forms of RFC 6282, 4.3.3, and a checksum that is left out."""
    frame = read(header(1, 2), NEXT, text, "6869")
    assert (frame.ports, frame.payload) == (ports, b"hi")


@pytest.mark.parametrize("text, fields", [
    ("7e33", ("fe80::202:2:2:2", "fe80::201:1:1:1", 64)),
    ("7d77", ("fd00::202:2:2:2", "fd00::201:1:1:1", 1)),
    ("7c77" "3f", ("fd00::202:2:2:2", "fd00::201:1:1:1", 63)),
    ("7ff7" "00", ("fd00::202:2:2:2", "fd00::201:1:1:1", 255)),
    ("7e40" + plain(1), ("::", "fd00::201:1:1:1", 64)),
    ("7e12" "0102030405060708" "1234", ("fe80::102:304:506:708", "fe80::ff:fe00:1234", 64)),
    ("7e65" "1234" "0102030405060708", ("fd00::ff:fe00:1234", "fd00::102:304:506:708", 64)),
    ("7e7b" "1a", ("fd00::202:2:2:2", "ff02::1a", 64)),
    ("7e7a" "05" "010203", ("fd00::202:2:2:2", "ff05::1:203", 64)),
    ("7e79" "05" "0102030405", ("fd00::202:2:2:2", "ff05::1:203:405", 64)),
    ("7e78" "ff0e" + "00" * 13 + "fb", ("fd00::202:2:2:2", "ff0e::fb", 64)),
    ("6677" "00000000", ("fd00::202:2:2:2", "fd00::201:1:1:1", 64)),
    ("6e77" "000000", ("fd00::202:2:2:2", "fd00::201:1:1:1", 64)),
    ("7677" "00", ("fd00::202:2:2:2", "fd00::201:1:1:1", 64)),
])
def test_addresses(text, fields):
    """The modes of RFC 6282, 3.1.1."""
    frame = read(header(1, 2), text, UDP, "6869")
    assert (str(frame.source), str(frame.destination), frame.hop_limit) == fields and frame.payload == b"hi"


ROUTE = "03" "01" "99" "10" "0000" + plain(3)[18:] + "00"
WITHIN = "60000000" "000a" "1140" + plain(4) + plain(3) + "223d" "162e" "000a" "5568" "6869"


@pytest.mark.parametrize("text", [
    # The option of RFC 6553, compressed; a source route (RFC 6554): one hop is left, 9 bytes of it are those of the destination.
    NEXT + "e1" "06" "6304" "0000" "0100" + UDP,
    NEXT + "e3" "0e" + ROUTE + UDP,
    # Padding that is left out (RFC 6282, 4.2).
    NEXT + "e7" "02" "0100" + UDP,
    NEXT + "e7" "03" "010100" + UDP,
    # The route alone is compressed; nothing of it; no header at all (RFC 4944, 5.1).
    NEXT + "e2" "11" "0e" + ROUTE + "223d" "162e" "000a" "5568",
    MESSAGE[:4] + "2b" "1101" + ROUTE + "223d" "162e" "000a" "5568",
    "41" "60000000" "000a" "1140" + plain(2) + plain(1) + "223d" "162e" "000a" "5568",
])
def test_headers(text):
    frame = read(header(1, 2), text, "6869")
    assert (frame.ports, frame.payload, frame.source, frame.hop_limit) == ((8765, 5678), b"hi", address(2), 64)
    assert frame.destination == address(3 if ROUTE in text else 1)


@pytest.mark.parametrize("text", [MESSAGE[:4] + "29" + WITHIN, MESSAGE[:4] + "2b" "2901" + ROUTE + WITHIN,
                                  NEXT + "e2" "29" "0e" + ROUTE + WITHIN, NEXT + "ee" "7e00" + plain(4) + plain(3) + UDP + "6869"])
def test_packet_within_another(text):
    """A header of the root around a packet from mote 4 to mote 3 (RFC 2473)."""
    frame = read(header(2, 1), text)
    assert (frame.source, frame.destination, frame.ports, frame.payload) == (address(4), address(3), (8765, 5678), b"hi")


def test_addresses_of_the_outer_header():
    """What a packet within another one leaves out of its addresses is that of the outer ones, and not of the link (RFC 6282, 3.2.2)."""
    frame = read(header(2, 1), "7e55" + plain(4)[16:] + plain(3)[16:] + "ee" "7e77" + UDP + "6869")
    assert (frame.source, frame.destination, frame.payload) == (address(4), address(3), b"hi")


@pytest.mark.parametrize("text", [
    "", "21", "030007", "09ec07" + "00" * 20, "21ee07" + "00" * 20, "013c07", "000007",
    header(1, 2) + NEXT, header(1, 2) + "7e77" "f0" "223d", header(1, 2) + "7e74" + UDP, header(1, 2) + "7ef7" "01" + UDP,
    header(1, 2) + NEXT + "eb06" + "00" * 9, header(1, 2) + NEXT + "e1" "7f" "6304", header(1, 2) + NEXT + "c0",
    header(1, 2) + "e100" "0001" "20" + "68" * 8, header(1, 2) + "e100" "0001" "0c" + "68" * 7, header(1, 2) + "e100" "0001" "0c",
    header(1, 2) + "41" "60000000" "000b" "1140" + plain(2) + plain(1) + "223d" "162e" "000a" "5568" "6869",
    header(1, 2) + MESSAGE[:4] + "11" "223d" "162e" "000b" "5568" "6869", header(1, 2) + MESSAGE + "9b01" "0000" "00",
    header(1, 2) + MESSAGE + "9b02" "0000" "0000" "00f1" "0512" "00", "022c07cdab" "0200020002000200" "00",
    header(1, 2) + NEXT + "e3" "0e" + ROUTE.replace("0301", "0303") + UDP,
])
def test_malformed_bytes_are_other(text):
    assert read(text).kind is FrameKind.OTHER


def test_no_bytes_raise():
    chance = random.Random(7)
    begins = [header(1, 2), to_all(1), header(1, 2) + NEXT, header(1, 2) + "c100" "0001", header(1, 2) + MESSAGE + "9b02" "0000", ""]
    for _ in range(20_000):
        frame = read(chance.choice(begins), chance.randbytes(chance.randrange(90)).hex())
        assert isinstance(frame.kind, FrameKind) and str(frame)
    whole = bytes.fromhex(header(1, 3) + MESSAGE + DAO)
    assert {read_frame(whole[:end]).kind for end in range(len(whole))} <= {FrameKind.OTHER, FrameKind.DATA, FrameKind.DAO}


@pytest.mark.parametrize("data", ["21ec", None, 7, [1]])
def test_wrong_types(data):
    with pytest.raises(WrongType, match="a frame must be bytes, not "):
        read_frame(data)
    if data != "21ec":
        with pytest.raises(WrongType, match="a run must be one of a network, or a transcript, not "):
            read_frames(data)


# Transcripts.

def sent(clock, mote, text):
    return f"= {clock}\n{mote} note sent {text}\n"


def heard(clock, mote, text):
    return f"= {clock}\n{mote} > tick 1\n{mote} > frame {text}\n"


def hello(sequence, to=1, by=2, end=""):
    """From mote 2 to mote 1, as mote `by` sends it to mote `to`."""
    ends = "7e77" if (to, by) == (1, 2) else "7e55" + plain(2)[16:] + plain(1)[16:]
    return header(to, by, sequence) + ends + UDP + "6869" + end


def ports_of(text):
    return deliveries(text, 8765, 5678)


def test_deliveries():
    """A packet that arrives, over two hops; one that is lost; and one with the same data, which is the last one on its way."""
    text = (sent(1, 2, hello(1, to=3)) + heard(2, 3, hello(1, to=3)) + sent(2, 3, hello(9, by=3)) + heard(3, 1, hello(9, by=3))
            + sent(10, 2, hello(2)) + sent(20, 2, hello(3)) + heard(20, 3, hello(3)) + heard(22, 1, hello(3)))
    assert ports_of(text) == [Delivery(2, 1, 1, 3, b"hi"), Delivery(2, 1, 10, None, b"hi"), Delivery(2, 1, 20, 22, b"hi")]
    assert [row.latency for row in ports_of(NetworkTranscript(text))] == [2, None, 2]
    assert deliveries(text, 5678, 8765) == [] and [str(frame) for frame in read_frames(text)] == ["UDP 8765 -> 5678"] * 4
    assert [(frame.clock, frame.mote) for frame in read_frames(text)] == [(1, 2), (2, 3), (10, 2), (20, 2)]
    with pytest.raises(WrongType, match="source_port must be an int, not str"):
        deliveries(text, "8765", 5678)


def test_repeats_are_one_packet():
    """A frame that is sent again has its bytes and its number. The number comes again after 256 frames: then it is another packet."""
    text = sent(1, 2, hello(1)) + sent(4, 2, hello(1)) + heard(5, 1, hello(1)) + heard(6, 1, hello(1))
    assert ports_of(text) == [Delivery(2, 1, 1, 5, b"hi")]
    between = "".join(sent(7, 2, to_all(2, number % 256) + "05") for number in range(2, 257))
    assert ports_of(text + between + sent(8, 2, hello(1)) + heard(9, 1, hello(1))) == [Delivery(2, 1, 1, 5, b"hi"),
                                                                                       Delivery(2, 1, 8, 9, b"hi")]


@pytest.mark.parametrize("others, packets", [(127, 1), (128, 2)])
def test_frames_between_repeats(others, packets):
    """The sender's number has 8 bits: after 128 other frames an equal one is another packet, which may have arrived or not."""
    between = "".join(sent(2, 2, to_all(2, number) + "05") for number in range(2, 2 + others))
    assert len(ports_of(sent(1, 2, hello(1)) + between + sent(8, 2, hello(1)))) == packets


def test_fragments_of_a_run():
    """A packet of 72 bytes, of which UDP's data are 24, in two fragments: 8 bytes of data after the headers, then 16 from 56 on."""
    first = header(1, 2, 1) + "c048" "0005" + NEXT + UDP + "01" * 8
    second = header(1, 2, 2) + "e048" "0005" "07" + "02" * 16
    text = sent(1, 2, first) + sent(1, 2, second) + heard(2, 1, second) + sent(3, 2, second) + heard(4, 1, first)
    assert [str(frame) for frame in read_frames(text)] == ["fragment 1 of 2", "fragment 2 of 2", "fragment 2 of 2"]
    assert ports_of(text) == [Delivery(2, 1, 1, 4, b"\1" * 8 + b"\2" * 16)]


def test_fragments_of_no_packet():
    """Whole, they aren't one of IPv6. A line of a transcript whose hex lacks a digit is no frame."""
    text = sent(1, 2, header(1, 2, 1) + "c010" "0001" "41" + "00" * 8) + sent(1, 2, header(1, 2, 2) + "e010" "0001" "01" + "00" * 8)
    assert [str(frame) for frame in read_frames(text)] == ["fragment 1 of 2", "fragment 2 of 2"] and ports_of(text) == []
    assert read_frames("1 note sent 416\n") == []


def dao(target, parent, lifetime="1e"):
    return header(1, target) + MESSAGE + "9b02" "0000" "00" "00" "00" "f1" "0512" "0080" + plain(target) + "0614" "0000" "f1" + lifetime + \
        plain(parent)


def test_parents():
    text = sent(1, 2, dao(2, 1)) + heard(2, 1, dao(2, 1)) + heard(3, 1, dao(3, 2)) + heard(3, 4, dao(4, 3)) + heard(4, 1, dao(5, 2))
    assert parents(text) == {2: 1, 3: 2, 5: 2}
    assert parents(text + heard(5, 1, dao(3, 1)) + heard(6, 1, dao(5, 2, "00"))) == {2: 1, 3: 1}


def test_graph():
    pytest.importorskip("networkx", reason="not here: python3-networkx")
    graph = ipv6.routing_tree(heard(2, 1, dao(2, 1)) + heard(3, 1, dao(3, 2)))
    assert list(graph.edges) == [(2, 1), (3, 2)] and graph.is_directed()


def test_table():
    pandas = pytest.importorskip("pandas", reason="not here: python3-pandas")
    table = ipv6.delivery_table(sent(1, 2, hello(1)) + heard(3, 1, hello(1)) + sent(9, 2, hello(2)), 8765, 5678)
    assert list(table.columns) == ["sender", "receiver", "sent", "arrived", "latency", "payload"]
    assert table.iloc[0].tolist() == [2, 1, 1, 3, 2, b"hi"] and table["arrived"].isna().tolist() == [False, True]
    assert isinstance(table, pandas.DataFrame) and table["latency"].mean() == 2


def test_table_of_what_pandas_is_given(monkeypatch):
    """The columns, as a stand-in for pandas gets them."""
    given = types.SimpleNamespace(DataFrame=dict, array=lambda numbers, dtype: (dtype, numbers))
    monkeypatch.setitem(sys.modules, "pandas", given)
    assert ipv6.delivery_table(sent(1, 2, hello(1)) + heard(3, 1, hello(1)) + sent(9, 2, hello(2)), 8765, 5678) == {
        "sender": ("Int64", [2, 2]), "receiver": ("Int64", [1, 1]), "sent": ("Int64", [1, 9]), "arrived": ("Int64", [3, None]),
        "latency": ("Int64", [2, None]), "payload": [b"hi", b"hi"]}


@pytest.mark.parametrize("name, make", [("networkx", ipv6.routing_tree), ("pandas", lambda text: ipv6.delivery_table(text, 1, 2))])
def test_packages_that_are_missing(monkeypatch, name, make):
    monkeypatch.setitem(sys.modules, name, None)
    with pytest.raises(MissingPackage, match=f"needs {name}: Debian's package python3-{name}"):
        make("")


def test_runs_of_a_network():
    network = Network(["relay", "relay"]).link(1, 2)
    network.frame(1, bytes.fromhex(hello(1)))
    assert [str(frame) for frame in read_frames(network)] == [str(frame) for frame in read_frames(network.so_far())] == ["UDP 8765 -> 5678"]
    assert toarmuts.ipv6 is ipv6


# The examples in C.

def run_example(name, *sources):
    if shutil.which("gcc") is None or not any(library.exists() for library in LIBRARIES):
        pytest.skip("not here: gcc, or the library of ./prove toarmuts")
    words = [ROOT / "contiki", "--network", IPV6 / f"{name}.net", *(IPV6 / source for source in sources)]
    with (IPV6 / f"{name}.script").open("rb") as script:
        return subprocess.run(words, stdin=script, capture_output=True, check=True, timeout=500).stdout


def test_rpl_udp():
    """Each request takes a tick for each hop, as each answer does; nothing is lost."""
    transcript = run_example("rpl-udp", "udp-server.c", "udp-client.c")
    assert parents(transcript) == {2: 1, 3: 2, 4: 3}
    requests, answers = deliveries(transcript, 8765, 5678), deliveries(transcript, 5678, 8765)
    assert {(row.sender, row.receiver, row.latency) for row in requests} == {(2, 1, 1), (3, 1, 2), (4, 1, 3)}
    assert {(row.sender, row.receiver, row.latency) for row in answers} == {(1, 2, 1), (1, 3, 2), (1, 4, 3)}
    assert [row.payload for row in answers] == [row.payload for row in requests] and len(requests) > 10
    assert FrameKind.OTHER not in {frame.kind for frame in read_frames(transcript)}


def test_talk():
    """Between any two motes, in fragments over three hops, three, and one, and to a mote that isn't there. What is too long isn't
    sent."""
    transcript = run_example("talk", "talk.c")
    assert [(row.sender, row.receiver, len(row.payload), row.latency is not None) for row in deliveries(transcript, 4001, 4000)] == [
        (4, 1, 2, True), (1, 4, 4, True), (4, 2, 6, True), (4, 1, 300, True), (1, 4, 1100, True), (3, 2, 1224, True), (2, 9, 6, False)]
    counts = [frame.fragment.of for frame in read_frames(transcript) if frame.fragment is not None and frame.fragment.at == 0]
    assert len(counts) == 3 + 3 + 1 and min(counts) > 1
