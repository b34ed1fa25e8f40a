"""UDP over IPv6: single frames to a mote, and what it sends and counts then. All bytes are written by hand, from the RFCs.

Frames are of the motes 2 to 9, which are only imagined, to mote 1, a root, or mote 2, which joins the network of mote 9.
"""

import re
from pathlib import Path

import pytest

from contiki_programs import Contiki
from ipv6_runs import IPV6, OWN, frames_of, run_network, serial, text_of

COUNTS = OWN / "counts.c"
MOTES = "mote 1..2 counts.c\n"
ALL_NODES, ALL_RPL_NODES = "ff020000000000000000000000000001", "ff02000000000000000000000000001a"


def end(mote: int) -> str:
    """The end of a mote's addresses, its link-layer address with the bit for 'universal' flipped (RFC 4291, appendix A)."""
    return f"02{mote:02x}" + f"00{mote:02x}" * 3


def near(mote: int) -> str:
    return "fe80000000000000" + end(mote)


def far(mote: int) -> str:
    return "fd00000000000000" + end(mote)


def checksum(source: str, destination: str, protocol: int, content: bytes) -> bytes:
    """RFC 8200, section 8.1."""
    whole = bytes.fromhex(source + destination) + len(content).to_bytes(4, "big") + bytes([0, 0, 0, protocol]) + content
    total = sum(int.from_bytes((whole + b"\0")[i:i + 2], "big") for i in range(0, len(whole), 2))
    while total >> 16:
        total = (total & 0xFFFF) + (total >> 16)
    return (~total & 0xFFFF).to_bytes(2, "big")


def icmp(source: str, destination: str, message: str) -> str:
    """A message with its checksum after type and code."""
    whole = bytes.fromhex(message[:4] + "0000" + message[4:])
    return message[:4] + checksum(source, destination, 58, whole).hex() + message[4:]


def udp(source: str, destination: str, port: int, data: bytes) -> str:
    """A UDP packet from port 1000."""
    head = bytes.fromhex("03e8") + port.to_bytes(2, "big") + (8 + len(data)).to_bytes(2, "big")
    return (head + checksum(source, destination, 17, head + b"\0\0" + data) + data).hex()


def plain(source: str, destination: str, protocol: str, content: str, begin: str = "60000000", limit: str = "40") -> str:
    """A packet with hop limit 64, unless another one is given: RFC 8200, section 3."""
    return begin + f"{len(content) // 2:04x}" + protocol + limit + source + destination + content


def link(mote: int) -> str:
    """A link-layer address in a frame, with the low byte first."""
    return f"{mote:02x}00" * 4


def frame(content: str, sender: int = 9, receiver: int = 1) -> str:
    """A data frame of 2015 to one mote, which asks for no acknowledgement. Its sequence number is set by `arrivals`."""
    return "01ec00cdab" + link(receiver) + link(sender) + content


def to_all(content: str, sender: int = 9) -> str:
    return "41e800cdabffff" + link(sender) + content


def sent(content: str, receiver: int = 9, sender: int = 1) -> str:
    """What a mote sends to one, without the sequence number; it asks for an acknowledgement."""
    return "21eccdab" + link(receiver) + link(sender) + content


def error(kind: str, parameter: int, packet: str, source: str = near(1), destination: str = near(9), header: str = "7a333a") -> str:
    """A frame with an ICMPv6 error and the packet that it is about. Its header: hop limit 64, next header ICMPv6, no bytes of addresses."""
    return sent(header + icmp(source, destination, kind + f"{parameter:08x}" + packet), int(destination[-2:], 16))


def dio(version: int, sender: int = 9, prefix: str = "fd00000000000000", dtsn: int = 0xF0, receiver: str = ALL_RPL_NODES) -> str:
    """A DIO with rank 128: RFC 6550, sections 6.3.1, 6.7.6 and 6.7.10."""
    body = f"00{version:02x}0080" f"08{dtsn:02x}0000" + far(9) + "040e" "00080c00" "0000" "0080" "0000" "001e003c" + \
        "081e4040" "ffffffff" "ffffffff" "00000000" + prefix + "0000000000000000"
    return "7a3b3a1a" + icmp(near(sender), receiver, "9b01" + body)


def dao(mote: int, parent: int, dag: str = far(1), target: str = "", lifetime: str = "1e") -> str:
    """A DAO of a mote, which asks for an answer, with a target and its parent: RFC 6550, sections 6.4, 6.7.7 and 6.7.8. In its frame the
    sender's address isn't that of the frame's sender."""
    message = "9b02" "00c000f1" + dag + "05120080" + (target or far(mote)) + "061400" f"00f1{lifetime}" + far(parent)
    return "7a573a" + end(mote) + icmp(far(mote), far(1), message)


def arrivals(frames: list[str], mote: int = 1, after: str = "") -> str:
    """The script of frames with different numbers, and of a line after each."""
    return "".join(f"{mote} frame {one[:4]}{number:02x}{one[6:]}\n{after}" for number, one in enumerate(frames, 1))


def replies_of(transcript: bytes) -> list[list[str]]:
    """What the motes sent after each frame that arrived, without the sequence numbers."""
    replies: list[list[str]] = []
    for line in transcript.decode().splitlines():
        if re.match(r"\d+ > frame ", line):
            replies.append([])
        elif found := re.match(r"\d+ note sent (....)..(.*)", line):
            replies[-1].append(found[1] + found[2])
    return replies


# A routing header of type 3 without padding, whose addresses are whole, or have their last 8 bytes only (RFC 6554, section 3).
def route(left: int, *addresses: str, kind: int = 3) -> str:
    compressed = "88" if len(addresses[0]) == 16 else "00"
    content = "".join(addresses)
    return "3b" f"{len(content) // 16:02x}{kind:02x}{left:02x}" + compressed + "000000" + content


OPTIONS_TWICE = plain(near(9), near(1), "3c", "00" "00" "010400000000" "3b" "00" "010400000000")
TOO_MANY_LEFT = plain(near(9), near(1), "2b", route(2, far(3)))
OTHER_KIND = plain(near(9), near(1), "2b", route(1, far(3), kind=5))
ROUND = plain(near(9), near(1), "2b", route(2, end(1), end(3), end(1)))
NO_SUCH_PORT = plain(near(9), near(1), "11", udp(near(9), near(1), 99, b"x"))
# A route to mote 3, and its compressed header after that of its kind: 22 bytes (RFC 6282, section 4.2).
TO_MOTE_3, ROUTED = route(1, far(3)), "16" "0300" "00000000" + far(1)
BY_SHORT, BY_OTHER = "fd00000000000000" "000000fffe001234", "20010db8000000000000000000000007"
ELSEWHERE = plain(far(2), "20010db800000000" + end(2), "3b", "")

# Frames to a root, and what it sends then.
EXCHANGES = {
    "RFC 8200, 4: a hop-by-hop header that isn't the first one is an unknown header": (
        frame("41" + OPTIONS_TWICE), [error("0401", 40, OPTIONS_TWICE)]),
    "RFC 6554, 4.2: more segments left than addresses": (frame("41" + TOO_MANY_LEFT), [error("0400", 43, TOO_MANY_LEFT)]),
    "RFC 8200, 4.4: a routing header of an unknown type": (frame("41" + OTHER_KIND), [error("0400", 42, OTHER_KIND)]),
    "RFC 6554, 4.2: a route that returns": (frame("41" + ROUND), [error("0400", 48, ROUND)]),
    "RFC 6554, 4.2: a source route of a packet to a group": (to_all("41" + plain(far(9), ALL_NODES, "2b", route(1, far(3)))), []),
    "RFC 4291, 2.5.6: a source route of a packet from an address of the link": (
        frame("41" + plain(near(9), far(1), "2b", route(1, far(3)))), []),
    "RFC 6554, 4.2: a source route goes on": (
        frame("41" + plain(far(9), far(1), "2b", route(1, far(3)))),
        # Hop limit 63 in line, the sender's end in line, the receiver's address left out; a routing header of 22 bytes, next header none.
        [sent("7c573f" + end(9) + "e2" "3b" "16" "0300" "00000000" + far(1), 3)]),
    "RFC 6282, 3.1.1: a traffic class and a flow label are in line, the ECN first": (
        frame("41" + plain(far(9), far(1), "2b", TO_MOTE_3, "6ab12345")), [sent("6457" "ea012345" "3f" + end(9) + "e2" "3b" + ROUTED, 3)]),
    "RFC 6282, 3.1.1: a sender of 16 bits by context 0": (
        frame("41" + plain(BY_SHORT, far(1), "2b", TO_MOTE_3)), [sent("7c67" "3f" "1234" "e2" "3b" + ROUTED, 3)]),
    "RFC 6282, 3.1.1: a sender of 128 bits": (
        frame("41" + plain(BY_OTHER, far(1), "2b", TO_MOTE_3)), [sent("7c07" "3f" + BY_OTHER + "e2" "3b" + ROUTED, 3)]),
    "RFC 6282, 3.1.1: a hop limit that becomes 1": (
        frame("41" + plain(far(9), far(1), "2b", TO_MOTE_3, limit="02")), [sent("7d57" + end(9) + "e2" "3b" + ROUTED, 3)]),
    "RFC 6282, 4.2: a routing header before destination options, which are the last header": (
        frame("41" + plain(far(9), far(1), "2b", "3c" + TO_MOTE_3[2:] + "3b00" "010400000000")),
        [sent("7c573f" + end(9) + "e3" + ROUTED + "e6" "3b" "06" "010400000000", 3)]),
    "RFC 6282, 4.3: a routing header before UDP": (
        frame("41" + plain(far(9), far(1), "2b", "11" + TO_MOTE_3[2:] + udp(far(9), far(3), 4000, b"x"))),
        [sent("7c573f" + end(9) + "e3" + ROUTED + "f0" "03e80fa0" + udp(far(9), far(3), 4000, b"x")[12:], 3)]),
    "RFC 4443, 4.2: a reply is from the address that was asked": (
        frame("41" + plain(near(9), far(1), "3a", icmp(near(9), far(1), "8000" "12340001" "61"))),
        [sent("7a733a" + icmp(far(1), near(9), "8100" "12340001" "61"))]),
    "RFC 4443, 3.1: a port that nobody has": (frame("41" + NO_SUCH_PORT), [error("0104", 0, NO_SUCH_PORT)]),
    "RFC 4443, 2.4 e: no error about a frame to all": (to_all("41" + NO_SUCH_PORT), []),
    "RFC 6550, 6.5: a DAO is acknowledged": (
        frame(dao(2, 1), 2), [sent("7a773a" + icmp(far(1), far(2), "9b03" "0000f100"), 2)]),
    "RFC 6550, 6.4: a DAO for another network isn't": (frame(dao(2, 1, far(9)), 2), []),
    "RFC 6550, 9.7: nor one of a mote that is its own parent": (frame(dao(2, 2), 2), []),
    "nor one of a mote with another prefix": (frame(dao(2, 1, target="20010db800000000" + end(2)), 2), []),
    "an address with another prefix, and the end of mote 2's": (
        frame("41" + ELSEWHERE, 2), [error("0100", 0, ELSEWHERE, far(1), far(2), "7a773a")]),
    "RFC 6550, 11.2.2.2: an RPL option that stays says that the packet goes down": (
        frame("41" + plain(far(3), far(2), "00", "3b01" "0106000000000000" "63040000" "0100"), 2),
        [sent("7c573f" + end(3) + "e0" "3b" "0e" "0106000000000000" "63048000" "0080", 2)]),
    "RFC 4291, 2.5.3: a packet to ::1": (frame("41" + plain(far(2), "0" * 31 + "1", "3b", ""), 2), []),
}


@pytest.fixture(name="exchanges", scope="module")
def run_exchanges(toarmuts_library: Path, shared: Path, tmp_path_factory: pytest.TempPathFactory) -> list[list[str]]:
    script = arrivals([bytes_in for bytes_in, _ in EXCHANGES.values()])
    contiki = Contiki(toarmuts_library, shared / "contiki")
    return replies_of(run_network(contiki, tmp_path_factory.mktemp("exchanges"), MOTES, [COUNTS], script, "--sanitize").stdout)


@pytest.mark.parametrize("exchange", EXCHANGES)
def test_exchange(exchanges: list[list[str]], exchange: str) -> None:
    assert len(exchanges) == len(EXCHANGES) and exchanges[list(EXCHANGES).index(exchange)] == EXCHANGES[exchange][1]


# ---- A mote that is no root ----

def joined(version: int) -> str:
    return f"2 [INFO: RPL       ] the mote joins version {version} of the network of fd00::209:9:9:9"


def test_versions(contiki: Contiki, tmp_path: Path) -> None:
    """RFC 6550, section 7.2: which versions are newer than the present one. 240 is newer than 5, and 5 is newer than 250, as that section
    says; two of one part that are more than 16 apart can't be compared."""
    steps = [(250, True), (5, True), (240, True), (241, True), (5, False), (1, True), (17, True), (34, False), (33, True), (49, True),
             (48, False), (65, True), (81, True), (97, True), (113, True), (127, True), (0, True), (240, False)]
    script = arrivals([to_all(dio(version)) for version, _ in steps], 2)
    lines = text_of(contiki, tmp_path, MOTES, [COUNTS], script, "-DLOG_CONF_LEVEL_RPL=LOG_LEVEL_INFO", "--sanitize")
    assert [line for line in lines if " joins " in line] == [joined(version) for version, is_newer in steps if is_newer]


def test_networks_that_cannot_be(contiki: Contiki, tmp_path: Path) -> None:
    """RFC 4862, section 5.5.3: a prefix of the link, or of groups. A DIO within a packet from far, by an address of another link. Then one
    that can be."""
    inside = plain(near(7), near(2), "3a", icmp(near(7), near(2), "9b00" "0000"))
    bad = [to_all(dio(240, prefix="fe80000000000000")), to_all(dio(240, prefix="ff02000000000000")),
           frame("41" + plain(near(9), near(2), "29", inside), receiver=2)]
    script = arrivals(bad, 2) + serial(2, "ip.drop") + f"2 frame {to_all(dio(241))}\n"
    lines = text_of(contiki, tmp_path, MOTES, [COUNTS], script, "-DLOG_CONF_LEVEL_RPL=LOG_LEVEL_INFO", "--sanitize")
    assert [line for line in lines if " joins " in line or "ip.drop" in line] == ["2 ip.drop 1", joined(241)]


def test_options_on_the_way_up(contiki: Contiki, tmp_path: Path) -> None:
    """RFC 8200, section 4.1, and RFC 6553: a packet has one hop-by-hop header, so the RPL option comes into the one that it has, with two
    bytes of padding. A packet to :: goes nowhere."""
    up = plain(far(3), far(9), "00", "3b00" "05020000" "0100")
    nowhere = plain(far(3), "0" * 32, "3b", "")
    script = arrivals([to_all(dio(240)), frame("41" + up, 3, 2), frame("41" + nowhere, 3, 2)], 2)
    replies = replies_of(run_network(contiki, tmp_path, MOTES, [COUNTS], script, "--sanitize").stdout)
    option = "63040000" "0100" "0100"
    assert replies[1:] == [[sent("7c573f" + end(3) + "e0" "3b" "0e" + option + "05020000" "0100", 9, 2)], []]


def test_routes_are_asked_for_below(contiki: Contiki, tmp_path: Path) -> None:
    """RFC 6550, section 9.6: a mote whose parent has a new DTSN sends its DAO, and tells those below by a new one of its own, at once: ten
    minutes after it has joined it would otherwise send a DIO after minutes."""
    heard = f"2 frame {to_all(dio(240))}\ntick 6400\n"
    script = 12 * heard + f"2 frame {to_all(dio(240, dtsn=0xF1))}\ntick 800\n"
    frames = [one for one in frames_of(run_network(contiki, tmp_path, MOTES, [COUNTS], script).stdout) if one.mote == 2]
    late = [one for one in frames if one.tick > 12 * 6400]
    assert {one.data[28] for one in frames if one.data[19:21].hex() == "9b01" and one not in late} == {0xF0}
    assert {one.data[28] for one in late if one.data[19:21].hex() == "9b01"} == {0xF1}
    # The DAO, after its frame's header, and compressed headers of 11 bytes with the RPL option.
    assert [one for one in late if one.data[32:34].hex() == "9b02"]


# ---- MRHOF, in a network of mote 9 ----

def etx_dio(rank: int, sender: int = 9) -> str:
    """A DIO of version 240 with the objective code point 1 (RFC 6719, section 9), and rank 128 for a step."""
    body = f"00f0{rank:04x}" "08f00000" + far(9) + "040e" "00080c00" "0000" "0080" "0001" "001e003c" + \
        "081e4040" "ffffffff" "ffffffff" "00000000" "fd00000000000000" "0000000000000000"
    return to_all("7a3b3a1a" + icmp(near(sender), ALL_RPL_NODES, "9b01" + body), sender)


def test_etx(contiki: Contiki, tmp_path: Path) -> None:
    """RFC 6719, section 3.3: the rank is that of the parent, 128, and the ETX in 128ths, at first that of two transmissions. Each frame
    that is acknowledged at once moves it by a quarter towards 128, from the fifth on by a tenth. The ranks are in the RPL option of
    replies."""
    ask = frame("7a773a" + icmp(far(9), far(2), "8000" "12340001"), receiver=2)
    acknowledge = "022c00cdab" + link(2)
    script = f"2 frame {etx_dio(128)}\n" + "".join(
        f"2 frame {ask[:4]}{number:02x}{ask[6:]}\n2 frame {acknowledge[:4]}{number:02x}{acknowledge[6:]}\n" for number in range(1, 7))
    frames = frames_of(run_network(contiki, tmp_path, MOTES, [COUNTS], script, "--sanitize").stdout)
    etx = [256, 224, 200, 182, 168, 164]
    assert [one.data[21:32].hex() for one in frames] == ["7e77" "e0" "3a" "06" "63040000" f"{128 + each:04x}" for each in etx]


@pytest.mark.parametrize("rank, switches", [(32, True), (33, False)])
def test_hysteresis(contiki: Contiki, tmp_path: Path, rank: int, switches: bool) -> None:
    """RFC 6719, section 3.2.2: the parent costs 128 and 256, so another one is taken if its path costs 288, which is 96 less, and not if it
    costs 289."""
    script = arrivals([etx_dio(128), etx_dio(rank, 8)], 2)
    lines = text_of(contiki, tmp_path, MOTES, [COUNTS], script, "-DLOG_CONF_LEVEL_RPL=LOG_LEVEL_INFO", "--sanitize")
    parents = [line.split()[-1] for line in lines if "the parent is" in line]
    assert parents == ["0009.0009.0009.0009", *(["0008.0008.0008.0008"] if switches else [])]


@pytest.mark.parametrize("rank, joins", [(32512, True), (32513, False)])
def test_greatest_cost(contiki: Contiki, tmp_path: Path, rank: int, joins: bool) -> None:
    """RFC 6719, section 5: a path costs 32,768 at most, of which the first hop is 256."""
    lines = text_of(contiki, tmp_path, MOTES, [COUNTS], f"2 frame {etx_dio(rank)}\n", "-DLOG_CONF_LEVEL_RPL=LOG_LEVEL_INFO", "--sanitize")
    assert any("the parent is" in line for line in lines) == joins


# ---- RPL at the root ----

def test_malformed_rpl(contiki: Contiki, tmp_path: Path) -> None:
    """Messages that are too short, whose last option is cut off, that aren't from an address of the link, or that are of no kind, are
    dropped, counted, and have no effect: nothing is sent."""
    def message(content: str, source: str = near(9), to: str = near(1)) -> str:
        return frame("41" + plain(source, to, "3a", icmp(source, to, content)))
    base = "00f00080" "08f00000" + far(1)
    bad = [message("9b00" "00"), message("9b00" "0000" "0102"), message("9b00" "0000", far(9), far(1)), message("9b01" "00f00080"),
           message("9b01" + base + "040e00"), message("9b01" + base, far(9), far(1)), message("9b02" "008000"),
           message("9b02" "00c000f1" "00"), message("9b02" "008000f1" "051200"), message("9b03" "0000f1"), message("9b0a" "00000000")]
    script = arrivals(bad, after=serial(1, "icmp.drop"))
    transcript = run_network(contiki, tmp_path, MOTES, [COUNTS], script, "--sanitize").stdout
    printed = [bytes.fromhex(line.split()[-1]).decode() for line in transcript.decode().splitlines() if "-> print" in line]
    assert printed == [f"icmp.drop {number}\n" for number in range(1, len(bad) + 1)] and not frames_of(transcript)


def test_table_forgets_parents(contiki: Contiki, tmp_path: Path) -> None:
    """Mote 3 has parent 2, of which the root knows nothing else, then the root as its parent, and then no route: no entry is left of
    either. The root is an entry itself."""
    daos = [dao(3, 2), dao(3, 1), dao(4, 3), dao(3, 1, lifetime="00"), dao(4, 1, lifetime="00")]
    script = arrivals([frame(each, 2) for each in daos], after=serial(1, "nodes"))
    lines = text_of(contiki, tmp_path, MOTES, [COUNTS], script, "--sanitize")
    assert [int(line.split()[-1]) for line in lines if "nodes" in line] == [3, 2, 3, 3, 1]


def test_root_asks_for_routes(contiki: Contiki, tmp_path: Path) -> None:
    """RFC 6550, section 9.6: a root that has no route for a mote of its network, as after it has begun anew, asks all for their DAOs by a
    new DTSN: at once, then after a minute, and then after two. It takes over a newer DTSN of before."""
    ask = f"1 frame {frame('41' + plain(far(2), far(1), '3a', icmp(far(2), far(1), '8000' '12340001')), 2)}\n"
    before = icmp(near(2), ALL_RPL_NODES, "9b01" "00f00100" "08f90000" + far(1))
    script = f"{ask}tick 640\n{ask}tick 640\n1 frame {to_all('7a3b3a1a' + before, 2)}\ntick 7680\n{ask}tick 7680\n{ask}tick 640\n" + \
        f"{ask}tick 7680\n{ask}tick 640\n"
    frames = frames_of(run_network(contiki, tmp_path, "mote 1 counts.c\n", [COUNTS], script).stdout)
    numbers = [(one.tick, one.data[28]) for one in frames if one.data[19:21].hex() == "9b01"]
    assert {number for tick, number in numbers if tick < 1280} == {0xF1}
    assert {number for tick, number in numbers if 1280 <= tick < 8960} == {0xF9}
    assert {number for tick, number in numbers if 9600 <= tick < 24000} == {0xFA}
    assert {number for tick, number in numbers if tick >= 25000} == {0xFB}


def test_answers_without_a_route(contiki: Contiki, tmp_path: Path) -> None:
    """A DAO whose parent's DAO is yet to come can't be acknowledged: that is no reason to ask all motes for theirs."""
    script = f"1 frame {frame(dao(3, 2), 2)}\ntick 1280\n"
    frames = frames_of(run_network(contiki, tmp_path, "mote 1 counts.c\n", [COUNTS], script).stdout)
    assert [one.data[28] for one in frames] == [0xF0] * len(frames) and len(frames) in (1, 2)


def test_root_again(contiki: Contiki, tmp_path: Path) -> None:
    """A root that leaves and starts within one activation is a root, of the next version, and has forgotten all motes. A packet to no
    address isn't sent."""
    script = f"tick 600\n1 frame {frame(dao(2, 1), 2)}\n" + "".join(
        serial(1, command) for command in ("nobody", "again")) + "tick 600\n" + serial(1, "stop") + serial(1, "start")
    transcript = run_network(contiki, tmp_path, "mote 1 commanded.c\n", [OWN / "commanded.c"], script).stdout
    frames = [one for one in frames_of(transcript) if one.data[19:21].hex() == "9b01"]
    assert {(one.data[24], one.data[28]) for one in frames if one.tick <= 600} == {(0xF0, 0xF0)}
    assert {(one.data[24], one.data[28]) for one in frames if one.tick > 600} == {(0xF1, 0xF1)}
    assert transcript.decode().count("-> print " + b"1 motes\n".hex()) == 2


# ---- Frames ----

WHOLE = plain(near(9), near(1), "11", udp(near(9), near(1), 4000, b"abcdefghijklmnopqrstuvwx"))
FIRST = "c048" "0001" "41" + WHOLE[:96]
HEARD = "fe80::209:9:9:9 1000 to fe80::201:1:1:1 4000: abcdefghijklmnopqrstuvwx"


def fragment(offset: int, length: int, tag: int = 1, size: int = 72) -> str:
    """A fragment that isn't the first one, with some bytes of the packet: RFC 4944, section 5.3."""
    return f"e0{size:02x}{tag:04x}{offset:02x}" + WHOLE[offset * 16:offset * 16 + 2 * length]


# Fragments, of which the last one makes the packet whole, and how many frames were dropped then.
FRAGMENTS = {
    "uncompressed headers (5.1)": ([FIRST, fragment(6, 24)], 0),
    "in another order": ([fragment(8, 8), FIRST, fragment(6, 16)], 0),
    "some twice": ([FIRST, FIRST, fragment(6, 8), fragment(6, 8), fragment(7, 16)], 0),
    "of two packets": ([FIRST, FIRST.replace("c0480001", "c0480002"), fragment(6, 24)], 0),
    "a longer one over a shorter one: the packet begins anew": ([FIRST, fragment(6, 8), fragment(6, 24), FIRST], 1),
    "a shorter one over a longer one": ([fragment(6, 16), fragment(6, 8), FIRST, fragment(7, 16)], 1),
    "one that begins within another one": ([fragment(6, 16), fragment(7, 16), FIRST, fragment(6, 8)], 1),
    "one that isn't the first, and begins where that does": ([FIRST, fragment(0, 48), fragment(6, 24)], 1),
    "one without bytes": ([FIRST, fragment(6, 0), fragment(6, 24)], 1),
    "one beyond the packet": ([FIRST, "e048" "0001" "09" "0000000000000000", fragment(6, 24)], 1),
    "one that ends between two units of 8 bytes": ([FIRST, fragment(6, 9), fragment(6, 24)], 1),
}


@pytest.mark.parametrize("name", FRAGMENTS)
def test_fragments(contiki: Contiki, tmp_path: Path, name: str) -> None:
    """RFC 4944, section 5.3: the packet arrives once, when its last fragment has come."""
    parts, dropped = FRAGMENTS[name]
    script = arrivals([frame(part) for part in parts], after=serial(1, "ip.recv"))
    lines = text_of(contiki, tmp_path, MOTES, [COUNTS], script + serial(1, "sicslowpan.drop"), "--sanitize")
    assert lines == ["1 ip.recv 0"] * (len(parts) - 1) + [f"1 {HEARD}", "1 ip.recv 1", f"1 sicslowpan.drop {dropped}"]


def test_fragments_to_all(contiki: Contiki, tmp_path: Path) -> None:
    """A fragment to all isn't one of a packet to this mote (RFC 4944, section 5.3)."""
    script = arrivals([frame(FIRST), to_all(fragment(6, 24)), frame(fragment(6, 24))], after=serial(1, "ip.recv"))
    assert text_of(contiki, tmp_path, MOTES, [COUNTS], script) == ["1 ip.recv 0", "1 ip.recv 0", f"1 {HEARD}", "1 ip.recv 1"]


def test_bad_headers(contiki: Contiki, tmp_path: Path) -> None:
    """A routing header whose length isn't a multiple of 8 (RFC 6282, section 4.2), contexts that the mote doesn't have (section 3.1.2),
    and a frame with the mote's own address: each is dropped and counted."""
    bad = [(frame("7e33" "e2" "3b" "07" + "03" "00" "88" "00" "0000" "00"), (1, 0)), (frame("7af3" "10" "3b"), (2, 0)),
           (frame("7af7" "01" "3b"), (3, 0)), (frame("7a333a" + icmp(near(1), near(1), "9b00" "0000"), sender=1), (3, 1))]
    lines = text_of(contiki, tmp_path, MOTES, [COUNTS], arrivals(
        [each for each, _ in bad], after=serial(1, "sicslowpan.drop") + serial(1, "mac.drop")), "--sanitize")
    assert lines == [f"1 {name}.drop {count}" for _, counts in bad for name, count in zip(("sicslowpan", "mac"), counts)]


ECHO = "7a333a" + icmp(near(9), near(1), "8000" "12340001")


def test_acknowledgements(contiki: Contiki, tmp_path: Path) -> None:
    """An acknowledgement in another PAN, or to another mote, is none; without one a frame is repeated after a tick."""
    def ack(pan: str, mote: int) -> str:
        return f"1 frame 022c01{pan}" + link(mote) + "\ntick 1\n"
    script = f"1 frame {frame(ECHO)}\n" + ack("3412", 1) + ack("cdab", 2) + ack("cdab", 1) + "tick 20\n"
    frames = frames_of(run_network(contiki, tmp_path, "mote 1 counts.c\n", [COUNTS], script).stdout)
    assert [one.tick for one in frames] == [0, 1, 2] and {one.data for one in frames} == {frames[0].data}


def test_numbers_of_frames(contiki: Contiki, tmp_path: Path) -> None:
    """Two frames that wait never have the same number: 254 frames later, the first one's is left out."""
    script = arrivals([frame(ECHO), frame(ECHO)]).replace("\n", "\n" + 254 * serial(1, "* x"), 1)
    frames = frames_of(run_network(contiki, tmp_path, "mote 1 talk.c\n", [IPV6 / "talk.c"], script).stdout)
    assert [one.data[2] for one in frames] == [1, *range(2, 256), 2]
