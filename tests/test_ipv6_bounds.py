"""UDP over IPv6: settings at their bounds and beyond, and tables that are full. docs/ipv6.md has the bounds."""

from pathlib import Path

import pytest

from contiki_programs import Contiki, messages, program_of, write_source
from ipv6_runs import CLIENT, IPV6, SERVER, delivery_of, frames_of, run_network, serial, text_of
from tools import output_of

LINE = "mote 1 udp-server.c\nmote 2..4 udp-client.c\nline 1..4 delay 1\n"
PAIR = "mote 1 udp-server.c\nmote 2 udp-client.c\nline 1..2 delay 1\n"
ALL_NEAR = "mote 1 udp-server.c\nmote 2..7 udp-client.c\n" + "".join(
    f"link {a} {b} delay 1\n" for a in range(1, 8) for b in range(1, 8) if a != b)
LEAST = ["UIP_CONF_BUFFER_SIZE=128", "UIP_CONF_UDP_CONNS=1", "UIP_CONF_TTL=1", "NBR_TABLE_CONF_MAX_NEIGHBORS=1", "UIP_SR_CONF_LINK_NUM=1",
         "QUEUEBUF_CONF_NUM=1", "RPL_CONF_DIO_INTERVAL_MIN=5", "RPL_CONF_DIO_INTERVAL_DOUBLINGS=1", "RPL_CONF_DIO_REDUNDANCY=1",
         "RPL_CONF_DEFAULT_LIFETIME=1", "RPL_CONF_DEFAULT_LIFETIME_UNIT=1", "RPL_CONF_MIN_HOPRANKINC=1", "RPL_CONF_DIS_INTERVAL=2",
         "RPL_CONF_DAO_DELAY=2", "RPL_CONF_DAO_RETRANSMISSION_TIMEOUT=1", "RPL_CONF_DAO_MAX_RETRANSMISSIONS=1",
         "RPL_CONF_PROBING_INTERVAL=128"]
GREATEST = ["UIP_CONF_BUFFER_SIZE=1280", "UIP_CONF_UDP_CONNS=10", "UIP_CONF_TTL=255", "NBR_TABLE_CONF_MAX_NEIGHBORS=20",
            "UIP_SR_CONF_LINK_NUM=640", "QUEUEBUF_CONF_NUM=16", "RPL_CONF_DIO_INTERVAL_DOUBLINGS=16", "RPL_CONF_DIO_REDUNDANCY=255",
            "RPL_CONF_DEFAULT_LIFETIME=254", "RPL_CONF_DEFAULT_LIFETIME_UNIT=65535", "RPL_CONF_MIN_HOPRANKINC=1024",
            "RPL_CONF_DAO_MAX_RETRANSMISSIONS=255", "RPL_CONF_PROBING_INTERVAL=2147483647"]
NEVER = ["RPL_CONF_DIO_INTERVAL_MIN=20", "RPL_CONF_DIO_INTERVAL_DOUBLINGS=13", "RPL_CONF_DIS_INTERVAL=2147483647",
         "RPL_CONF_DAO_DELAY=2147483647", "RPL_CONF_DAO_RETRANSMISSION_TIMEOUT=2147483647", "RPL_CONF_PROBING_INTERVAL=2147483647"]
INTERVALS = "RPL_CONF_DIO_INTERVAL_MIN is 5 to 20, RPL_CONF_DIO_INTERVAL_DOUBLINGS 1 to 16"
LIFETIMES = "RPL_CONF_DEFAULT_LIFETIME is 1 to 255, RPL_CONF_DEFAULT_LIFETIME_UNIT 1 to 65535 seconds"
NODES = "UIP_SR_CONF_LINK_NUM, NETSTACK_MAX_ROUTE_ENTRIES, UIP_CONF_MAX_ROUTES: a root knows at most 640 motes"
# Settings beyond a bound, and the messages about them.
BELOW = {
    "UIP_CONF_BUFFER_SIZE=127": "UIP_CONF_BUFFER_SIZE: a packet has at most 128 to 1280 bytes",
    "UIP_CONF_UDP_CONNS=0": "UIP_CONF_UDP_CONNS: there are 1 to 10 connections",
    "UIP_CONF_TTL=0": "UIP_CONF_TTL: a hop limit is 1 to 255",
    "NBR_TABLE_CONF_MAX_NEIGHBORS=0": "NBR_TABLE_CONF_MAX_NEIGHBORS: a mote knows 1 to 20 neighbours",
    "UIP_SR_CONF_LINK_NUM=-1": NODES,
    "QUEUEBUF_CONF_NUM=0": "QUEUEBUF_CONF_NUM: 1 to 16 frames wait",
    "RPL_CONF_DIO_INTERVAL_MIN=4": INTERVALS,
    "RPL_CONF_DIO_REDUNDANCY=-1": "RPL_CONF_DIO_REDUNDANCY is 0 to 255",
    "RPL_CONF_DEFAULT_LIFETIME=0": LIFETIMES,
    "RPL_CONF_MIN_HOPRANKINC=0": "RPL_CONF_MIN_HOPRANKINC is 1 to 1024",
    "RPL_CONF_DAO_MAX_RETRANSMISSIONS=0": "RPL_CONF_DAO_MAX_RETRANSMISSIONS is 1 to 255",
    "RPL_CONF_DIS_INTERVAL=1": "RPL_CONF_DIS_INTERVAL and RPL_CONF_DAO_DELAY are at least 2 ticks, "
                               "RPL_CONF_PROBING_INTERVAL is at least a second",
}
ABOVE = {
    "UIP_CONF_BUFFER_SIZE=1281": "UIP_CONF_BUFFER_SIZE: a packet has at most 128 to 1280 bytes",
    "UIP_CONF_UDP_CONNS=11": "UIP_CONF_UDP_CONNS: there are 1 to 10 connections",
    "UIP_CONF_TTL=256": "UIP_CONF_TTL: a hop limit is 1 to 255",
    "NBR_TABLE_CONF_MAX_NEIGHBORS=21": "NBR_TABLE_CONF_MAX_NEIGHBORS: a mote knows 1 to 20 neighbours",
    "UIP_SR_CONF_LINK_NUM=641": NODES,
    "QUEUEBUF_CONF_NUM=17": "QUEUEBUF_CONF_NUM: 1 to 16 frames wait",
    "RPL_CONF_DIO_INTERVAL_DOUBLINGS=17": INTERVALS,
    "RPL_CONF_DIO_REDUNDANCY=256": "RPL_CONF_DIO_REDUNDANCY is 0 to 255",
    "RPL_CONF_DEFAULT_LIFETIME_UNIT=65536": LIFETIMES,
    "RPL_CONF_MIN_HOPRANKINC=1025": "RPL_CONF_MIN_HOPRANKINC is 1 to 1024",
    "RPL_CONF_DAO_MAX_RETRANSMISSIONS=256": "RPL_CONF_DAO_MAX_RETRANSMISSIONS is 1 to 255",
    "RPL_CONF_DAO_DELAY=2147483648": "RPL_CONF_DIS_INTERVAL, RPL_CONF_DAO_DELAY, RPL_CONF_DAO_RETRANSMISSION_TIMEOUT, "
                                     "RPL_CONF_PROBING_INTERVAL: at most 2147483647 ticks",
}
# The interval of a trickle timer by both settings, and CLOCK_SECOND: below 2 ticks, or 2^31 ticks and more.
BOTH = {"RPL_CONF_DIO_INTERVAL_MIN=20 RPL_CONF_DIO_INTERVAL_DOUBLINGS=14": "128", "RPL_CONF_DIO_INTERVAL_MIN=5": "60"}
LAST = "the program has settings that change nothing; docs/ipv6.md lists what there is"


def flags(settings: list[str]) -> list[str]:
    return [f"-D{setting}" for setting in settings]


@pytest.mark.parametrize("refused", [BELOW, ABOVE], ids=["below", "above"])
def test_beyond(contiki: Contiki, tmp_path: Path, refused: dict[str, str]) -> None:
    source = write_source(tmp_path, program_of("NETSTACK_ROUTING.root_start();"))
    ran = contiki(*flags(list(refused)), source)
    assert ran.returncode == 65 and sorted(messages(ran.stderr)) == sorted([*refused.values(), LAST]), output_of(ran)


@pytest.mark.parametrize("settings", BOTH)
def test_intervals(contiki: Contiki, tmp_path: Path, settings: str) -> None:
    source = write_source(tmp_path, program_of("NETSTACK_ROUTING.root_start();"))
    ran = contiki("--clock-second", BOTH[settings], *flags(settings.split()), source)
    message = "RPL_CONF_DIO_INTERVAL_MIN, RPL_CONF_DIO_INTERVAL_DOUBLINGS: an interval has 2 to 2147483647 ticks"
    assert messages(ran.stderr) == [message, LAST]


def test_least(contiki: Contiki, tmp_path: Path) -> None:
    """One frame waits at a time: so a request isn't sent where a DAO waits, and a line says why. The others are answered."""
    lines = text_of(contiki, tmp_path, PAIR, [SERVER, CLIENT], "tick 19200\n", *flags(LEAST))
    found = delivery_of(lines)
    unsent = [line for line in lines if "a packet isn't sent: a frame has no room, to " in line]
    assert len(found.sent) > 5 and len(found.sent - found.answered) <= len(unsent) <= len(found.sent) // 4


def test_greatest(contiki: Contiki, tmp_path: Path) -> None:
    """A route that lasts for half a year, and ranks that rise by 1,024."""
    found = delivery_of(text_of(contiki, tmp_path, LINE, [SERVER, CLIENT], "tick 15360\n", *flags(GREATEST)))
    assert {mote for mote, _ in found.sent} == {2, 3, 4} and found.answered == found.sent


def test_intervals_without_end(contiki: Contiki, tmp_path: Path) -> None:
    """Motes that never ask and never tell the root are never reachable, and nothing stops."""
    lines = text_of(contiki, tmp_path, LINE, [SERVER, CLIENT], "tick 512000\ntick 512000\n", *flags(NEVER))
    assert {line.split("] ")[1] for line in lines} == {"Not reachable yet"}


@pytest.mark.parametrize("neighbours", [1, 2])
def test_full_neighbours(contiki: Contiki, tmp_path: Path, neighbours: int) -> None:
    """Six motes that all hear each other, and know one or two of them: the root is the best one."""
    found = delivery_of(text_of(contiki, tmp_path, ALL_NEAR, [SERVER, CLIENT], "tick 7680\n",
                                f"-DNBR_TABLE_CONF_MAX_NEIGHBORS={neighbours}"))
    assert {mote for mote, _ in found.sent} == set(range(2, 8)) and found.answered == found.sent


def test_no_nodes(contiki: Contiki, tmp_path: Path) -> None:
    """A root that may know no mote says so, and goes on."""
    lines = text_of(contiki, tmp_path, LINE, [SERVER, CLIENT], "tick 7680\n", "-DUIP_SR_CONF_LINK_NUM=0")
    full = "1 [WARN: RPL       ] the table of motes is full: 0, and the heap has no room, or UIP_SR_CONF_LINK_NUM allows no more"
    assert full in lines and not delivery_of(lines).sent


def test_few_slots(contiki: Contiki, tmp_path: Path) -> None:
    """A packet of 300 bytes takes four fragments, of at most 96 bytes: with three slots for frames that wait none of them is sent, with
    four all are."""
    network = "mote 1..2 talk.c\nline 1..2 delay 1\n"
    for slots, count in ((3, 0), (4, 4)):
        transcript = run_network(contiki, tmp_path, network, [IPV6 / "talk.c"], "tick 2560\n" + serial(1, "2 #300") + "tick 0\n",
                                 f"-DQUEUEBUF_CONF_NUM={slots}").stdout
        assert len([one for one in frames_of(transcript) if one.tick == 2560 and one.data[21] & 0xF8 in (0xC0, 0xE0)]) == count
        assert (b"a packet isn't sent: a frame has no room".hex().encode() in transcript) == (count == 0)
