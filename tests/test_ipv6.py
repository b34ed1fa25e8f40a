"""UDP over IPv6: runs of programs, and their frames.

What programs print is written out from docs/ipv6.md. Frames of each kind are compared with bytes that were written out from the RFCs and
IEEE 802.15.4-2015, and all frames are read by tshark, where it is.
"""

from ipaddress import IPv6Address
from pathlib import Path

import pytest

from contiki_programs import HELLO, STRICT, Contiki, messages, program_of, write_source
from ipv6_runs import CLIENT, IPV6, OWN, SERVER, Frame, delivery_of, dissect, frames_of, run_network, serial, text_of, write_capture
from tools import ROOT, SANITIZERS, needs, output_of, program, run, sanitizes, succeed

EXAMPLES = {"readings": ["sink.c", "sensor.c"], "talk": ["talk.c"], "events": ["events.c"]}
BUILDS = {"gcc": ["--cc", "gcc"], "clang, sanitized": ["--cc", "clang", "--sanitize"]}
LINE = "mote 1 udp-server.c\nmote 2..4 udp-client.c\nline 1..4 delay 1\n"
TREE = "mote 1 udp-server.c\nmote 2..30 udp-client.c\n" + "".join(
    f"link {parent} {child} delay 1\nlink {child} {parent} delay 1\n" for child in range(2, 31) for parent in [(child + 1) // 3])


# ---- Programs ----

@pytest.mark.parametrize("build", BUILDS)
@pytest.mark.parametrize("name", EXAMPLES)
def test_example(contiki: Contiki, name: str, build: str) -> None:
    ran = contiki("--network", IPV6 / f"{name}.net", *BUILDS[build], *STRICT, "--text", *(IPV6 / source for source in EXAMPLES[name]),
                  stdin=IPV6 / f"{name}.script")
    assert (ran.returncode, ran.stdout, ran.stderr) == (0, (IPV6 / f"{name}.text").read_bytes(), b""), output_of(ran)


def test_each_example_is_tried() -> None:
    names = {"rpl-udp", "udp-server", "udp-client", *EXAMPLES, *(Path(source).stem for sources in EXAMPLES.values() for source in sources)}
    assert {path.stem for path in IPV6.iterdir()} == names


def test_awkward_calls(contiki: Contiki, tmp_path: Path) -> None:
    """Calls of the stack in nested activations, callbacks of timers and EXIT; round 1 is after 20 seconds, the sixth doesn't come."""
    lines = text_of(contiki, tmp_path, "mote 1..2 orders.c\nline 1..2 delay 1\n", [OWN / "orders.c"], "tick 16000\n", *STRICT, "--sanitize")
    assert lines == [
        "1 registered 1", "1 another port 1", "1 root 0 1", "2 registered 1", "2 another port 1", "2 round 1, joined 1", "1 abc in Main",
        "2 nested in Main", "2 posted in Main", "2 by timer in Main", "2 round 2, joined 1", "2 round 3, joined 1",
        "1 sent before the stack leaves in Main", "2 round 4, joined 1", "2 round 5, joined 1", "1 farewell in Main"]


def test_sockets(contiki: Contiki, tmp_path: Path) -> None:
    """A socket hears what is for its port, in the process that registered it, and answers whoever sent it. Calls on one that isn't
    registered return -1, the others 1, or the number of bytes. A socket that is closed hears nothing."""
    begin = ["-1 -1 -1", "-1 -1", "1 1", "1 1"]
    script = serial(1, "hello") + "tick 4\n" + serial(2, "close") + serial(1, "again") + "tick 4\n"
    lines = text_of(contiki, tmp_path, "mote 1..2 sockets.c\nline 1..2 delay 1\n", [OWN / "sockets.c"], script, *STRICT, "--sanitize")
    assert lines == [
        *(f"{mote} {line}" for mote in (1, 2) for line in begin), "1 1 5",
        "2 question 1 1 from 4000 to 3000, ff02: hello in Sockets", "2 sent 4", "1 answer 1 1 from mote 2, 3000 to 4000: four",
        "2 1", "2 -1 -1", "1 1 5"]


def test_connections(contiki: Contiki, tmp_path: Path) -> None:
    """UDP by events: with that of the other process and that to mote 1 there are ten connections. Mote 3 hears what goes to all, and by its
    connection to mote 1 only that one. What is for a process that has ended is dropped. A packet without data isn't sent."""
    script = serial(1, "hello") + "tick 2\n" + serial(1, "one") + serial(2, "one") + "tick 2\n" + serial(3, "drop") + serial(2, "other") + \
        "tick 2\n" + serial(3, "drop") + serial(3, "end") + serial(2, "other") + "tick 2\n" + serial(3, "drop") + serial(2, "nothing") + \
        "tick 2\n"
    network = "mote 1..3 connections.c\nlink 1 3 delay 1\nlink 2 3 delay 1\nlink 3 1 delay 1\n"
    lines = text_of(contiki, tmp_path, network, [OWN / "connections.c"], script, *STRICT, "--sanitize")
    begin = [f"{mote} {line}" for mote in (1, 2, 3) for line in ("8 more, then 1", "port 3000")]
    assert lines == [*begin, "3 hello from port 3000, 0 1, new 1", "3 one from port 3000, 1 0, new 1", "3 dropped 1", "3 dropped 1",
                     "3 dropped 2"]


# ---- rpl-udp ----

def test_stored_chart(contiki: Contiki) -> None:
    """The picture in the page is that of the run, up to the root's first route."""
    network = IPV6 / "rpl-udp.net"
    ran = contiki("--network", network, SERVER, CLIENT, stdin=network.with_suffix(".script"))
    drawn = run(program("network_picture"), "--to", "910", stdin=network.read_bytes() + ran.stdout)
    assert drawn.stdout == network.with_suffix(".svg").read_bytes(), output_of(drawn)


def test_line(contiki: Contiki, tmp_path: Path) -> None:
    """Three hops, 150 seconds and one in which nobody sends: each request arrives and is answered."""
    found = delivery_of(text_of(contiki, tmp_path, LINE, [SERVER, CLIENT], "tick 19200\n"))
    assert {mote for mote, _ in found.sent} == {2, 3, 4} and len(found.sent) >= 33
    assert found.arrived == found.sent == found.answered


def test_tree_of_thirty(contiki: Contiki, tmp_path: Path) -> None:
    """29 motes below the root, at most three hops away."""
    found = delivery_of(text_of(contiki, tmp_path, TREE, [SERVER, CLIENT], "tick 15360\n"))
    assert {mote for mote, _ in found.sent} == set(range(2, 31))
    assert len(found.sent - found.arrived) <= 1 and len(found.arrived - found.answered) <= 1


def test_losses(contiki: Contiki, tmp_path: Path) -> None:
    """Each link loses a fifth of its frames. Of a frame and its acknowledgement one is lost in 9 of 25 cases; of eight tries all are in one
    of 3,500."""
    network = LINE.replace("delay 1", "delay 1 lot 13107 seed 1")
    found = delivery_of(text_of(contiki, tmp_path, network, [SERVER, CLIENT], "tick 38400\n"))
    assert len(found.sent) >= 60 and found.arrived <= found.sent and found.answered <= found.arrived
    assert len(found.sent - found.answered) <= 2


def test_grid_of_a_hundred(contiki: Contiki, tmp_path: Path) -> None:
    """18 hops deep, at the default sizes: each mote is reachable within 100 seconds, and at most one request in 2,000 is lost, but for
    those that are underway at the end."""
    network = "mote 1 udp-server.c\nmote 2..100 udp-client.c\ngrid 1..100 width 10 delay 1\n"
    lines = text_of(contiki, tmp_path, network, [SERVER, CLIENT], "tick 12800\ntick 14080\n")
    found = delivery_of(lines)
    assert {mote for mote, number in found.answered if number == 0} == set(range(2, 101))
    assert len(found.sent) > 1500 and len(found.sent - found.arrived) <= 2 and len(found.sent - found.answered) <= 3


def test_server_restarts(contiki: Contiki, tmp_path: Path) -> None:
    """The server's process ends and starts; a new version begins; the root leaves, and begins anew with an empty table."""
    network = LINE.replace("udp-server.c", "commanded.c")
    steps = (("stop", 2560), ("start", 2560), ("repair", 3840), ("leave", 2560), ("root", 6400))
    script = "tick 5120\n" + "".join(f"{serial(1, command)}tick {ticks}\n" for command, ticks in steps)
    lines = text_of(contiki, tmp_path, network, [OWN / "commanded.c", CLIENT], script)
    parts: list[list[str]] = [[]]
    for line in lines:
        if line in ("1 stop", "1 start", "1 repair", "1 leave", "1 root"):
            parts.append([])
        parts[-1].append(line)
    before, stopped, started, repaired, left, root = map(delivery_of, parts)
    assert before.answered and before.answered == before.sent
    assert stopped.arrived == stopped.sent and stopped.sent and not stopped.answered
    assert parts[2][1] == "1 4 motes" and started.answered == started.sent and started.sent
    assert repaired.answered == repaired.sent and repaired.sent
    assert not left.answered
    assert {mote for mote, _ in root.answered} == {2, 3, 4}


def test_root_forgets(contiki: Contiki, tmp_path: Path) -> None:
    """The root dies, and another mote takes its address: it has the same version and DTSN as at first, and knows no mote. It finds that out
    by the first request that it can't answer, and asks for the routes: hop by hop, each needs a DIO and a DAO, of at most 4 and 6
    seconds. Otherwise motes tell the root again after a quarter of an hour."""
    file = tmp_path / "heir.net"
    file.write_text("mote 1 commanded.c\nmote 2..4 udp-client.c\nmote 5 heir.c\nline 1..4 delay 1\nlink 2 5 delay 1\nlink 5 2 delay 1\n",
                    encoding="utf-8")
    script = "tick 12800\n" + serial(1, "halt") + "tick 1\n" + serial(5, "be") + "tick 5760\n" + serial(5, "late") + "tick 7680\n"
    ran = contiki("--network", file, "--text", OWN / "commanded.c", OWN / "heir.c", CLIENT, stdin=script.encode())
    lines = ran.stdout.decode().splitlines()
    assert ran.returncode == 0 and b"contiki: mote 1 halted: " in ran.stderr, output_of(ran)
    halted, late = (lines.index(line) for line in ("1 halt", "5 late"))
    assert {mote for mote, _ in delivery_of(lines[:halted]).answered} == {2, 3, 4}
    after = delivery_of(lines[late:])
    assert len(after.sent) >= 15 and len(after.sent - after.answered) <= 1


@pytest.mark.parametrize("halted", [2, 3])
def test_mote_halts(contiki: Contiki, tmp_path: Path, halted: int) -> None:
    """A diamond, of which mote 4 is at the other end than the root: where either mote between them halts, it goes on by the other one. A
    mote without a sign of its parent asks for that after 60 seconds, and gives it up 12 seconds later."""
    file = tmp_path / "diamond.net"
    links = "".join(f"link {a} {b} delay 1\n" for a, b in ((1, 2), (2, 1), (1, 3), (3, 1), (2, 4), (4, 2), (3, 4), (4, 3)))
    file.write_text(f"mote 1 udp-server.c\nmote 2..3 counts.c\nmote 4 udp-client.c\n{links}", encoding="utf-8")
    script = "tick 5120\n" + serial(halted, "halt") + "tick 10240\n" + serial(5 - halted, "ip.drop") + "tick 5120\n"
    ran = contiki("--network", file, "--text", SERVER, OWN / "counts.c", CLIENT, stdin=script.encode())
    lines = ran.stdout.decode().splitlines()
    assert ran.returncode == 0 and f"contiki: mote {halted} halted: ".encode() in ran.stderr, output_of(ran)
    end, = (index for index, line in enumerate(lines) if line.startswith(f"{5 - halted} ip.drop"))
    late = delivery_of(lines[end:])
    assert len(late.sent) >= 3 and late.answered == late.sent


def test_mrhof(contiki: Contiki, tmp_path: Path) -> None:
    """Mote 3 hears the root over a link that loses half of the frames, each way, so that one of four is acknowledged, and mote 2 over good
    links. By OF0 it stays one hop away, by MRHOF it takes two, of two transmissions in all."""
    network = "mote 1 udp-server.c\nmote 2..3 udp-client.c\nline 1..3 delay 1\nlink 1 3 delay 1 lot 32768 seed 1\n" \
        "link 3 1 delay 1 lot 32768 seed 2\n"
    for objective, parent in (("RPL_OCP_OF0", 1), ("RPL_OCP_MRHOF", 2)):
        lines = text_of(contiki, tmp_path, network, [SERVER, CLIENT], "tick 38400\n", f"-DRPL_CONF_OF_OCP={objective}",
                        "-DLOG_CONF_LEVEL_RPL=LOG_LEVEL_INFO")
        parents = [line.split()[-1] for line in lines if line.startswith("3 ") and "the parent is" in line]
        assert parents[-1] == ".".join(4 * [f"{parent:04x}"])
        found = delivery_of(lines)
        assert len(found.sent) > 40 and len(found.sent - found.answered) <= 4


# ---- 6LoWPAN ----

@pytest.mark.parametrize("compiler", ["gcc", "clang"])
def test_sicslowpan(tmp_path: Path, compiler: str) -> None:
    """Random packets arrive as they were sent; the sanitizers see no fault, also of random frames."""
    if not sanitizes(compiler):
        pytest.skip(f"no {compiler} with sanitizers here")
    driver = ROOT / "c/contiki/src"
    parts = [*(driver / f"ipv6/{part}.c" for part in ("addresses", "compress", "expand", "sicslowpan")), driver / "modules/uiplib.c"]
    includes = [f"-I{folder}" for folder in (ROOT / "c/contiki/include", ROOT / "crates/toarmuts/include", driver)]
    succeed(compiler, "-std=gnu11", "-g", "-O1", "-Wall", "-Wextra", "-Werror", *SANITIZERS, "-DCONTIKI_MODULE", *includes,
            ROOT / "tests/c/sicslowpan.c", *parts, "-o", tmp_path / "sicslowpan")
    assert succeed(tmp_path / "sicslowpan").stdout == b"40000 packets in more frames: yes\n"


# ---- Errors ----

def test_errors(contiki: Contiki, tmp_path: Path) -> None:
    """ICMPv6 errors, in the order of their distances: a hop limit that is reached at mote 2, a port and an address that nobody has."""
    lines = text_of(contiki, tmp_path, "mote 1..3 hops.c\nline 1..3 delay 1\n", [OWN / "hops.c"], "tick 7800\n",
                    "-DLOG_CONF_LEVEL_IPV6=LOG_LEVEL_INFO", *STRICT)
    assert sorted(lines) == sorted([
        "2 [INFO: IPv6      ] a packet is dropped: its hop limit is reached",
        "3 [INFO: ICMPv6    ] error 3, code 0, from fd00::202:2:2:2",
        "3 [INFO: ICMPv6    ] error 1, code 4, from fd00::201:1:1:1",
        "1 [INFO: IPv6      ] a packet is dropped: there is no route",
        "3 [INFO: ICMPv6    ] error 1, code 0, from fd00::201:1:1:1"])


def test_full_table(contiki: Contiki, tmp_path: Path) -> None:
    """A table for two motes: the third is told in a line of the root, and never reachable; the others are."""
    lines = text_of(contiki, tmp_path, LINE, [SERVER, CLIENT], "tick 9600\n", "-DUIP_SR_CONF_LINK_NUM=2")
    found = delivery_of(lines)
    full = "1 [WARN: RPL       ] the table of motes is full: 2, and the heap has no room, or UIP_SR_CONF_LINK_NUM allows no more"
    assert len({mote for mote, _ in found.sent}) == 2 and found.answered == found.sent and full in lines


def test_no_heap(contiki: Contiki, tmp_path: Path) -> None:
    """A heap that has no block for the table."""
    network = LINE.replace("udp-server.c", "--heap 100 udp-server.c")
    lines = text_of(contiki, tmp_path, network, [SERVER, CLIENT], "tick 3840\n")
    assert not delivery_of(lines).sent and any("the table of motes is full: 0" in line for line in lines)


def test_no_managed_memory(contiki: Contiki, tmp_path: Path) -> None:
    """A mote whose managed memory has no room for a DIO, of 95 bytes."""
    network = LINE.replace("udp-server.c", "--mmem 64 udp-server.c")
    lines = text_of(contiki, tmp_path, network, [SERVER, CLIENT], "tick 1280\n")
    assert lines[0] == "1 [WARN: MAC       ] a frame isn't sent: managed memory has no room for its 95 bytes"


# ---- Settings, and programs that can't be ----

REFUSED = {
    "UIP_CONF_TCP=1": "UIP_CONF_TCP: the stack has no TCP",
    "UIP_CONF_BUFFER_SIZE=1500": "UIP_CONF_BUFFER_SIZE: a packet has at most 128 to 1280 bytes",
    "RPL_CONF_DIO_INTERVAL_DOUBLINGS=0": "RPL_CONF_DIO_INTERVAL_MIN is 5 to 20, RPL_CONF_DIO_INTERVAL_DOUBLINGS 1 to 16",
    "RPL_CONF_MOP=2": "RPL_CONF_MOP: RPL is in mode 1, without routes in the motes",
    "RPL_CONF_OF_OCP=2": "RPL_CONF_OF_OCP: the objective function is RPL_OCP_OF0 or RPL_OCP_MRHOF",
    "RPL_CONF_SUPPORTED_OFS={&rpl_of0}": "RPL_CONF_SUPPORTED_OFS: OF0 and MRHOF are supported; the root's RPL_CONF_OF_OCP chooses",
    "RPL_CONF_STATS=1": "RPL_CONF_STATS: the IPv6 stack has no such setting",
    "UIP_CONF_LL_802154=1": "UIP_CONF_LL_802154: the IPv6 stack has no such setting",
}
LAST = "the program has settings that change nothing; docs/ipv6.md lists what there is"


@pytest.mark.parametrize("compiler", ["gcc", "clang"])
def test_refused_settings(contiki: Contiki, tmp_path: Path, compiler: str) -> None:
    source = write_source(tmp_path, program_of("NETSTACK_ROUTING.root_start();"))
    ran = contiki("--cc", compiler, *(f"-D{setting}" for setting in REFUSED), source)
    assert ran.returncode == 65 and sorted(messages(ran.stderr)) == sorted([*REFUSED.values(), LAST]), output_of(ran)


def test_settings_of_a_program_without_ipv6(contiki: Contiki, tmp_path: Path) -> None:
    source = write_source(tmp_path, program_of('printf("on\\n");'))
    ran = contiki("--text", *(f"-D{setting}" for setting in REFUSED), source)
    assert (ran.returncode, ran.stdout, ran.stderr) == (0, b"on\n", b""), output_of(ran)


def test_settings_take_effect(contiki: Contiki, tmp_path: Path) -> None:
    """A DIO's options, the hop limit, and the longest packet: one of 128 bytes has 80 of data."""
    script = serial(1, "* " + 81 * "y") + serial(1, "* x") + "tick 2000\n"
    transcript = run_network(contiki, tmp_path, "mote 1 talk.c\n", [IPV6 / "talk.c"], script,
                             "-DRPL_CONF_DIO_INTERVAL_MIN=10", "-DRPL_CONF_DIO_INTERVAL_DOUBLINGS=3", "-DRPL_CONF_DIO_REDUNDANCY=5",
                             "-DRPL_CONF_DEFAULT_LIFETIME=20", "-DRPL_CONF_DEFAULT_LIFETIME_UNIT=30", "-DRPL_CONF_MIN_HOPRANKINC=256",
                             "-DUIP_CONF_TTL=7", "-DUIP_CONF_BUFFER_SIZE=128").stdout
    frames = frames_of(transcript)
    assert b"81 bytes aren't sent: a packet has".hex().encode() in transcript
    # IPHC with the hop limit after it: next header compression, ff02::1 in one byte.
    assert frames[0].data[15:19].hex() == "7c3b" "07" "01" and frames[0].data.endswith(b"x")
    configuration = bytes.fromhex("040e" "00" "03" "0a" "05" "0000" "0100" "0000" "00" "14" "001e")
    assert configuration in frames[1].data


def test_nullnet_beside_ipv6(contiki: Contiki, tmp_path: Path) -> None:
    source = write_source(tmp_path, program_of("NETSTACK_ROUTING.root_start(); NETSTACK_NETWORK.output(NULL);"))
    wanted = "a program sends by NullNet (nullnet.h, NETSTACK_NETWORK) or by IPv6 (simple-udp.h, NETSTACK_ROUTING), not by both"
    for compiler in ("gcc", "clang"):
        ran = contiki("--cc", compiler, source)
        assert (ran.returncode, messages(ran.stderr)[0]) == (65, wanted), output_of(ran)


def test_program_without_udp_has_no_stack(contiki: Contiki, tmp_path: Path) -> None:
    """Neither has one that only prints addresses."""
    source = write_source(tmp_path, program_of("uip_ipaddr_t a; uip_create_unspecified(&a); uiplib_ipaddr_print(&a); "
                                               'printf(" %d\\n", uip_is_addr_unspecified(&a));'))
    assert contiki("--text", source).stdout == b":: 1\n"
    for each in (source, HELLO):
        built = tmp_path / "built"
        assert contiki("--build", built, each).returncode == 0
        assert b"TCP/IP stack" not in built.read_bytes()


# RFC 4291, section 2.2: texts of addresses, and the address as uiplib.h prints it, or 0 where the text is none.
TEXTS = {"::": "::", "::1": "::1", "fd00::202:2:2:2": "fd00::202:2:2:2", "1:2:3:4:5:6:7:8": "1:2:3:4:5:6:7:8", "FE80::aBc": "fe80::abc",
         "0001:0:0:0:0:0:0:1": "1::1", "1:2:3:4:5:6:7::": "1:2:3:4:5:6:7:0", "0x1::": "0", "::0x1": "0", "12345::": "0", ":1": "0",
         "1:": "0", "1::2::3": "0", ":::": "0", "1:2:3:4:5:6:7": "0", "1:2:3:4:5:6:7:8:9": "0", "1:2:3:4:5:6:7:8::": "0", "g::": "0",
         "": "0", "::1 ": "0"}


def test_texts_of_addresses(contiki: Contiki, tmp_path: Path) -> None:
    body = "uip_ipaddr_t a; " + " ".join(
        f'if(uiplib_ip6addrconv("{text}", &a)) {{ uiplib_ipaddr_print(&a); }} else {{ printf("0"); }} printf("\\n");' for text in TEXTS)
    ran = contiki("--text", "--sanitize", write_source(tmp_path, program_of(body)))
    assert ran.stdout.decode().splitlines() == list(TEXTS.values()), output_of(ran)


# ---- Frames ----

def checksum(source: str, destination: str, protocol: int, content: bytes) -> bytes:
    """That of RFC 8200, section 8.1, of a content whose checksum field is 0."""
    whole = bytes.fromhex(source + destination) + len(content).to_bytes(4, "big") + bytes([0, 0, 0, protocol]) + content
    whole += bytes(len(whole) % 2)
    total = sum(int.from_bytes(whole[i:i + 2], "big") for i in range(0, len(whole), 2))
    while total >> 16:
        total = (total & 0xFFFF) + (total >> 16)
    return (~total & 0xFFFF).to_bytes(2, "big")


def address(mote: int) -> str:
    """A mote's global address."""
    return f"fd000000000000000{0x200 + mote:03x}" + f"{mote:04x}" * 3


def header(to: int, sequence: int, sender: int) -> str:
    """Of a frame to one mote: data, an acknowledgement is asked for, version 2015, long addresses; the receiver's PAN alone."""
    return f"21ec{sequence:02x}cdab" + f"{to:02x}00" * 4 + f"{sender:02x}00" * 4


def icmp(source: str, destination: str, message: str) -> str:
    """A message with its checksum after type and code."""
    whole = bytes.fromhex(message[:4] + "0000" + message[4:])
    return message[:4] + checksum(source, destination, 58, whole).hex() + message[4:]


DIO = ("00" "f0" "0080" "08" "f0" "0000" + address(1) + "040e" "00" "08" "0c" "00" "0000" "0080" "0000" "00" "1e" "003c"
       "081e" "40" "40" "ffffffff" "ffffffff" "00000000" "fd000000000000000000000000000000")


def test_dio(contiki: Contiki, tmp_path: Path) -> None:
    """The root's first frame: to all in version 2015; IPHC without traffic class, next header ICMPv6, hop limit 64, the sender's address
    left out, ff02::1a in one byte; RFC 6550, sections 6.3.1, 6.7.6 and 6.7.10."""
    frame = frames_of(run_network(contiki, tmp_path, "mote 1 udp-server.c\n", [SERVER], "tick 600\n").stdout)[0]
    assert frame.data.hex() == "41e8" "01" "cdab" "ffff" "0100010001000100" "7a3b" "3a" "1a" + icmp(
        "fe800000000000000201000100010001", "ff02000000000000000000000000001a", "9b01" + DIO)


def test_dis(contiki: Contiki, tmp_path: Path) -> None:
    """A mote without a network asks all: RFC 6550, section 6.2."""
    frame = frames_of(run_network(contiki, tmp_path, "mote 1 udp-client.c\n", [CLIENT], "tick 6000\n").stdout)[0]
    assert frame.data.hex() == "41e8" "01" "cdab" "ffff" "0100010001000100" "7a3b" "3a" "1a" + icmp(
        "fe800000000000000201000100010001", "ff02000000000000000000000000001a", "9b00" "0000")


def kinds(frames: list[Frame], sender: int, length: int) -> list[Frame]:
    return [frame for frame in frames if frame.mote == sender and len(frame.data) == length]


@pytest.fixture(name="line", scope="module")
def run_line(toarmuts_library: Path, shared: Path, tmp_path_factory: pytest.TempPathFactory) -> bytes:
    """The transcript of a minute of rpl-udp on a line."""
    contiki = Contiki(toarmuts_library, shared / "contiki")
    return run_network(contiki, tmp_path_factory.mktemp("line"), LINE, [SERVER, CLIENT], "tick 5120\n").stdout


def first(frames: list[Frame], begin: str) -> Frame:
    """The first frame that begins so, after its sequence number."""
    return next(frame for frame in frames if frame.data[:2].hex() == begin[:4] and frame.data[3:].hex().startswith(begin[6:]))


def test_dao_and_its_acknowledgements(line: bytes) -> None:
    """Mote 2's DAO to the root, with the RPL option of its rank; the root's enhanced acknowledgement; the DAO-ACK, which goes one hop
    without a source route. RFC 6550, sections 6.4, 6.5, 6.7.7 and 6.7.8; RFC 6553; RFC 6282, section 4.2."""
    frames = frames_of(line)
    dao = first(frames, header(1, 0, 2))
    sequence = dao.data[2]
    # IPHC with next header compression, hop limit 64, both addresses by context 0 and left out; NHC of hop-by-hop, whose next header is
    # ICMPv6, of 6 bytes: the option 63 of 4 bytes, down, rank error and forwarding error 0, instance 0, rank 256.
    begin = header(1, sequence, 2) + "7e77" "e0" "3a" "06" "6304" "00" "00" "0100"
    count = dao.data[len(bytes.fromhex(begin)) + 7]
    message = f"9b02" f"00" f"c0" f"00" f"{count:02x}" + address(1) + "0512" "00" "80" + address(2) + \
        f"0614" f"00" f"00" f"{count:02x}" f"1e" + address(1)
    assert dao.data.hex() == begin + icmp(address(2), address(1), message)
    own = [frame for frame in frames if frame.tick == dao.tick + 1 and frame.mote == 1]
    assert own[0].data.hex() == f"022c{sequence:02x}cdab" "0200020002000200"
    answer = header(2, own[1].data[2], 1) + "7a77" "3a" + icmp(address(1), address(2), f"9b03" f"00" f"00" f"{count:02x}" f"00")
    assert own[1].data.hex() == answer


def test_request_and_response(line: bytes) -> None:
    """A request of mote 4 at its three hops, where each mote writes its rank into the option and counts the hop limit down; the response
    with a source route of two more hops, of which all but 7 bytes are those of the destination (RFC 6554, section 3), at its three hops.
    RFC 6282, section 4.3: NHC of UDP with all of both ports."""
    frames = frames_of(line)
    data = b"hello 0"
    udp = bytes.fromhex("223d162e") + (8 + len(data)).to_bytes(2, "big")
    content = udp[:4] + checksum(address(4), address(1), 17, udp + b"\0\0" + data) + data
    # The checksum is the same both ways.
    both = [frame for frame in frames if frame.data.endswith(content[4:])]
    assert [frame.mote for frame in both] == [4, 3, 2, 1, 2, 3]
    up, down = both[:3], both[3:]
    for frame, to, limit, rank, addresses in zip(up, (3, 2, 1), ("", "3f", "3e"), ("0200", "0180", "0100"),
                                                 ("7e75" "0201000100010001", "7c55" "3f" "0204000400040004" "0201000100010001",
                                                  "7c57" "3e" "0204000400040004")):
        assert limit in addresses
        assert frame.data.hex() == header(to, frame.data[2], frame.mote) + addresses + "e1" "06" "6304" "00" "00" + rank + "f0" + \
            content.hex()
    back = bytes.fromhex("162e223d") + (8 + len(data)).to_bytes(2, "big")
    response = back[:4] + checksum(address(1), address(4), 17, back + b"\0\0" + data) + data
    for frame, to, addresses, left, route in zip(down, (2, 3, 4), ("7e77", "7c57" "3f" "0201000100010001", "7c57" "3e" "0201000100010001"),
                                                 ("02", "01", "00"), ((3, 4), (2, 4), (2, 3))):
        # NHC of a routing header of 22 bytes: type 3, segments left, CmprI and CmprE 9, 2 bytes of padding.
        hops = "".join((f"{mote:02x}00" * 4)[:14] for mote in route)
        assert frame.data.hex() == header(to, frame.data[2], frame.mote) + addresses + "e3" "16" "03" + left + "99" "20" "0000" + hops + \
            "0000" "f0" + response.hex()


@needs("tshark")
def test_tshark(contiki: Contiki, line: bytes, tmp_path: Path) -> None:
    """tshark finds no fault in any frame, all of which are data frames or acknowledgements of 2015, and each checksum right."""
    talk = contiki("--network", IPV6 / "talk.net", IPV6 / "talk.c", stdin=IPV6 / "talk.script").stdout
    frames = frames_of(line) + frames_of(talk)
    capture = write_capture(tmp_path / "run.pcap", frames)
    assert not dissect(capture, ["frame.number", "_ws.expert.message"], "-Y", '_ws.malformed || _ws.expert.severity >= "Warning"')
    rows = dissect(capture, ["wpan.version", "wpan.frame_type", "udp.checksum.status", "icmpv6.checksum.status", "icmpv6.type"])
    assert len(rows) == len(frames)
    assert {row[0] for row in rows} == {"2"} and {int(row[1], 16) for row in rows} == {1, 2}
    assert {row[2] for row in rows} == {"", "1"} and {row[3] for row in rows} == {"", "1"}
    ports = dissect(capture, ["udp.srcport", "udp.dstport", "udp.length"], "-Y", "udp")
    assert {tuple(row) for row in ports} >= {("8765", "5678", "15"), ("5678", "8765", "15"), ("4000", "4001", "20"),
                                             ("4001", "4000", "1232")}


def test_capture_is_whole(line: bytes) -> None:
    """No frame has more than 125 bytes, without its checksum; each frame to one mote was acknowledged."""
    frames = frames_of(line)
    asked = [frame for frame in frames if frame.data[0] == 0x21]
    answered = [frame for frame in frames if frame.data[0] == 0x02]
    assert all(len(frame.data) <= 125 for frame in frames) and len(asked) == len(answered) > 40


# ---- What comes from outside ----

OUTSIDE = "21ec{:02x}cdab0100010001000100" "0900090009000900"


def test_echo(contiki: Contiki, tmp_path: Path) -> None:
    """An echo request from fe80::209:9:9:9, and the reply with its bytes (RFC 4443, sections 4.1 and 4.2)."""
    near, own = "fe800000000000000209000900090009", "fe800000000000000201000100010001"
    request = OUTSIDE.format(1) + "7a33" "3a" + icmp(near, own, "8000" "1234" "0001" "70696e67")
    transcript = run_network(contiki, tmp_path, "mote 1 counts.c\n", [OWN / "counts.c"], f"1 frame {request}\n").stdout
    replies = [frame.data.hex() for frame in frames_of(transcript)]
    assert replies == ["022c" "01" "cdab" "0900090009000900",
                       header(9, 1, 1) + "7a33" "3a" + icmp(own, near, "8100" "1234" "0001" "70696e67")]


# Headers in the forms of RFC 6282, each before the checksum of a UDP packet and its data; with the packet's addresses and ports.
NEAR, HERE = "fe800000000000000209000900090009", "fe800000000000000201000100010001"
FAR, SHORT, OTHER = "fd000000000000000209000900090009", "fe80000000000000000000fffe001234", "20010db8000000000000000000000007"
PORTS, NODES, ROUTERS = "03e80fa0", "ff020000000000000000000000000001", "ff020000000000000000000000000002"
FORMS = {
    "3.1.1 nothing left in line": ("7e33" "f0" + PORTS, NEAR, HERE, PORTS),
    "3.1.1 TF 00: traffic class and flow label": ("6633" "41012345" "f0" + PORTS, NEAR, HERE, PORTS),
    "3.1.1 TF 01: the ECN and the flow label": ("6e33" "412345" "f0" + PORTS, NEAR, HERE, PORTS),
    "3.1.1 TF 10: the traffic class": ("7633" "41" "f0" + PORTS, NEAR, HERE, PORTS),
    "3.1.1 hop limit 1": ("7d33" "f0" + PORTS, NEAR, HERE, PORTS),
    "3.1.1 hop limit 255": ("7f33" "f0" + PORTS, NEAR, HERE, PORTS),
    "3.1.1 hop limit 9": ("7c33" "09" "f0" + PORTS, NEAR, HERE, PORTS),
    "3.1.1 context identifiers, both 0": ("7ef7" "00" "f0" + PORTS, FAR, "fd000000000000000201000100010001", PORTS),
    "3.1.1 addresses of 128 bits": ("7e00" + OTHER + HERE + "f0" + PORTS, OTHER, HERE, PORTS),
    "3.1.1 addresses of 64 bits": ("7e11" "0209000900090009" "0201000100010001" "f0" + PORTS, NEAR, HERE, PORTS),
    "3.1.1 a sender of 16 bits": ("7e23" "1234" "f0" + PORTS, SHORT, HERE, PORTS),
    "3.1.1 a sender by context 0": ("7e73" "f0" + PORTS, FAR, HERE, PORTS),
    "3.1.2 context identifiers of addresses that use none": ("7eb3" "11" "f0" + PORTS, NEAR, HERE, PORTS),
    "3.2.3 a group in 8 bits": ("7e3b" "01" "f0" + PORTS, NEAR, NODES, PORTS),
    "3.2.3 a group in 32 bits": ("7e3a" "02000002" "f0" + PORTS, NEAR, ROUTERS, PORTS),
    "3.2.3 a group in 48 bits": ("7e39" "020000000002" "f0" + PORTS, NEAR, ROUTERS, PORTS),
    "3.2.3 a group in 128 bits": ("7e38" + NODES + "f0" + PORTS, NEAR, NODES, PORTS),
    "4.3.3 8 bits of the receiver's port": ("7e33" "f1" "03e8" "b3", NEAR, HERE, "03e8f0b3"),
    "4.3.3 8 bits of the sender's port": ("7e33" "f2" "e8" "0fa0", NEAR, HERE, "f0e80fa0"),
    "4.3.3 4 bits of both ports": ("7e33" "f3" "73", NEAR, HERE, "f0b7f0b3"),
    "4.2 a destination header without its padding": ("7e33" "e7" "00" "f0" + PORTS, NEAR, HERE, PORTS),
}


@pytest.fixture(name="forms", scope="module")
def run_forms(toarmuts_library: Path, shared: Path, tmp_path_factory: pytest.TempPathFactory) -> list[str]:
    """What a mote prints of a packet in each form."""
    script = ""
    for number, (form, source, destination, ports) in enumerate(FORMS.values(), 1):
        data = bytes([0x60 + number])
        whole = bytes.fromhex(ports) + (8 + len(data)).to_bytes(2, "big") + b"\0\0" + data
        script += f"1 frame {OUTSIDE.format(number)}{form}{checksum(source, destination, 17, whole).hex()}{data.hex()}\n"
    contiki = Contiki(toarmuts_library, shared / "contiki")
    return text_of(contiki, tmp_path_factory.mktemp("forms"), "mote 1 counts.c\n", [OWN / "counts.c"], script, "--sanitize")


@pytest.mark.parametrize("form", FORMS)
def test_form(forms: list[str], form: str) -> None:
    number = list(FORMS).index(form)
    _, source, destination, ports = FORMS[form]
    shown = (str(IPv6Address(bytes.fromhex(part))) for part in (source, destination))
    sender, receiver = (f"{name} {int(ports[at:at + 4], 16)}" for name, at in zip(shown, (0, 4)))
    assert len(forms) == len(FORMS) and forms[number] == f"1 {sender} to {receiver}: {chr(0x61 + number)}"


# Frames to mote 1, and a count after each: addresses without a header of 2015, fragments, headers that can't be expanded, wrong lengths and
# checksums, and what isn't known. `ip.drop` counts all packets that are dropped.
BAD = [
    ("61dc01cdab0100010001000100" "0900090009000900" "7a333a", "mac.drop 1"),
    ("ff", "mac.drop 2"),
    (OUTSIDE.format(1), "sicslowpan.drop 1"),
    (OUTSIDE.format(2) + "7a", "sicslowpan.drop 2"),
    (OUTSIDE.format(3) + "7e33" "e4" "3a06630400000100", "sicslowpan.drop 3"),
    (OUTSIDE.format(4) + "7e33" "f4" "223d162e0000", "sicslowpan.drop 4"),
    (OUTSIDE.format(5) + "c7ff" "0001" "7a333a", "sicslowpan.drop 5"),
    (OUTSIDE.format(6) + "e040" "0001" "08" "000000", "sicslowpan.drop 6"),
    (OUTSIDE.format(7) + "41" "7a" + "00" * 39, "ip.vhlerr 1"),
    (OUTSIDE.format(8) + "41" "60000000" "0005" "3aff" + NEAR + HERE + "80", "ip.lblenerr 1"),
    (OUTSIDE.format(9) + "7a33" "3a" "8000", "ip.lblenerr 2"),
    (OUTSIDE.format(10) + "7a33" "3a" "80000000" "12340001", "icmp.chkerr 1"),
    (OUTSIDE.format(11) + "7a33" "3a" + icmp(NEAR, HERE, "c800" "00000000"), "icmp.typeerr 1"),
    (OUTSIDE.format(12) + "7a33" "11" "0fa00fa0" "0009" "1111" "78", "udp.chkerr 1"),
    (OUTSIDE.format(13) + "7a33" "06" "0000", "ip.protoerr 1"),
    (OUTSIDE.format(14) + "7e33" "e0" "3a06" "c20400000000" "80000000", "ip.drop 5"),
]


def test_bad_frames(contiki: Contiki, tmp_path: Path) -> None:
    """Each bad frame is dropped and counted."""
    script = "".join(f"1 frame {frame}\n" + serial(1, count.split()[0]) for frame, count in BAD)
    lines = text_of(contiki, tmp_path, "mote 1 counts.c\n", [OWN / "counts.c"], script, "--sanitize")
    assert lines == [f"1 {count}" for _, count in BAD]
