"""What a frame of IPv6 is, by its bytes alone (docs/ipv6.md): headers of IEEE 802.15.4, 6LoWPAN, IPv6, UDP, ICMPv6 and RPL."""
from __future__ import annotations

import enum
from collections.abc import Iterator
from dataclasses import dataclass
from ipaddress import IPv6Address
from typing import Any, NamedTuple

from .errors import WrongType


class FrameKind(enum.Enum):
    """What a frame is."""

    ACK = "ack"
    DATA = "data frame"
    """A data frame whose content isn't 6LoWPAN, as those of NullNet."""
    FRAGMENT = "fragment"
    """Of a packet that is longer than a frame."""
    DIS = "DIS"
    DIO = "DIO"
    DAO = "DAO"
    DAO_ACK = "DAO-ACK"
    ECHO_REQUEST = "echo request"
    ECHO_REPLY = "echo reply"
    ERROR = "ICMPv6 error"
    UDP = "UDP"
    OTHER = "other"
    """Malformed, or of another kind."""


class Fragment(NamedTuple):
    """A part of a packet (RFC 4944, section 5.3). ``number`` and ``of`` are known among the frames of a run: which one it is,
    by its position, from 1 on, and of how many."""

    size: int
    """The bytes of the whole packet."""
    tag: int
    at: int
    """The position of the fragment's first byte in the packet."""
    number: int | None = None
    of: int | None = None


class Dio(NamedTuple):
    """What a DIO says (RFC 6550, section 6.3)."""

    instance: int
    version: int
    rank: int
    mode: int
    dodag: IPv6Address


class Route(NamedTuple):
    """A target of a DAO, its parent, and for how many units of time; 0 takes the route back. The parent is None where it isn't named."""

    target: IPv6Address
    parent: IPv6Address | None
    lifetime: int


class Dao(NamedTuple):
    """What a DAO says (section 6.4)."""

    instance: int
    sequence: int
    wants_ack: bool
    routes: tuple[Route, ...]


class DaoAck(NamedTuple):
    """What a DAO-ACK says (section 6.5)."""

    instance: int
    sequence: int
    status: int


@dataclass(frozen=True)
class Ipv6Frame:
    """A frame, as far as its bytes say what it is. ``str`` is a short text: ``UDP 8765 -> 5678``, ``fragment 2 of 4``."""

    kind: FrameKind
    sequence: int | None = None
    """The sequence number of the frame; an acknowledgement has that of the frame that arrived."""
    sender: bytes | None = None
    """Its sender's link-layer address; None where it has none, as an acknowledgement. :func:`mote_of` makes a mote's number of it."""
    receiver: bytes | None = None
    """Its receiver's; ``ff ff`` are all in reach."""
    source: IPv6Address | None = None
    """Whose packet it is. Of a packet within another one, the inner one's."""
    destination: IPv6Address | None = None
    """Whom the packet is for at last, also where a source route has further hops before."""
    hop_limit: int | None = None
    ports: tuple[int, int] | None = None
    """Of UDP: from which port to which one."""
    icmp: tuple[int, int] | None = None
    """Type and code of ICMPv6."""
    payload: bytes = b""
    """The data of UDP or of a data frame, or what follows the checksum of ICMPv6."""
    fragment: Fragment | None = None
    rpl: Dio | Dao | DaoAck | None = None
    clock: int | None = None
    """Of a run: when it was sent."""
    mote: int | None = None
    """Of a run: which mote sent it."""

    def __str__(self) -> str:
        if self.ports is not None:
            return f"UDP {self.ports[0]} -> {self.ports[1]}"
        if self.fragment is not None:
            part = self.fragment
            known = part.number is not None
            return f"fragment {part.number} of {part.of}" if known else f"fragment from {part.at} on, of {part.size} bytes"
        if self.kind is FrameKind.ERROR and self.icmp is not None:
            return f"ICMPv6 error: {_ERRORS.get(self.icmp[0], self.icmp[0])}, code {self.icmp[1]}"
        return self.kind.value


_ERRORS = {1: "destination unreachable", 2: "packet too big", 3: "time exceeded", 4: "parameter problem"}
TO_ALL = b"\xff\xff"
CONTEXT_0 = bytes([0xfd]) + bytes(7)
"""The prefix of context 0 (docs/ipv6.md); other contexts aren't known."""
_LINK_LOCAL = bytes([0xfe, 0x80]) + bytes(6)
_ICMP, _UDP, _IPV6, _ROUTING = 58, 17, 41, 43
_OPTIONS = (0, 60)
_EXTENSIONS = {0: 0, 1: _ROUTING, 2: 44, 3: 60, 4: 135}
"""The next headers of RFC 6282, section 4.2."""


class Malformed(Exception):
    """Bytes that aren't what they must be."""


def _require(holds: bool) -> None:
    if not holds:
        raise Malformed


class _Bytes:
    """Bytes that are read in order."""

    def __init__(self, data: bytes) -> None:
        self.data, self.at = data, 0

    def take(self, count: int) -> bytes:
        """The next bytes, ``count`` of them."""
        _require(self.at + count <= len(self.data))
        self.at += count
        return self.data[self.at - count:self.at]

    def number(self, count: int = 1) -> int:
        """The next bytes as a number, the high byte first."""
        return int.from_bytes(self.take(count), "big")

    def rest(self) -> bytes:
        """All bytes that are left."""
        return self.take(len(self.data) - self.at)


def mote_of(address: IPv6Address | bytes) -> int | None:
    """The number of the mote with this address of IPv6 or of the link; None where no mote has such a one.

    >>> mote_of(IPv6Address("fe80::302:102:102:102")), mote_of(IPv6Address("ff02::1"))
    (258, None)
    """
    if not isinstance(address, (IPv6Address, bytes)):
        raise WrongType(f"an address must be an IPv6Address or bytes, not {type(address).__name__}")
    link = _flipped(address.packed[8:]) if isinstance(address, IPv6Address) else address
    if isinstance(address, IPv6Address) and address.packed[:8] not in (_LINK_LOCAL, CONTEXT_0):
        return None
    number = int.from_bytes(link[:2], "big")
    return number if number and link == link[:2] * 4 else None


def _flipped(address: bytes) -> bytes:
    """The end of an address of IPv6 that a link-layer address of 8 bytes gives, and back (RFC 4291, appendix A)."""
    return bytes([address[0] ^ 2]) + address[1:]


# The header of IEEE 802.15.4.

class _Header(NamedTuple):
    kind: int
    sequence: int | None
    sender: bytes | None
    receiver: bytes | None
    content: bytes


_SIZES = {0: 0, 2: 2, 3: 8}
_LONG = 3


def _read_header(data: bytes) -> _Header:
    """The header of a frame (section 7.2), which has the low byte of each field first."""
    found = _Bytes(data)
    control = int.from_bytes(found.take(2), "little")
    version, to, by, is_short = control >> 12 & 3, control >> 10 & 3, control >> 14 & 3, control >> 6 & 1
    # Without security and information elements; modes and version aren't reserved ones.
    _require(not control & 0x208 and version < 3 and to in _SIZES and by in _SIZES)
    sequence = None if version == 2 and control & 0x100 else found.number()
    pans = _pans_of_2015(to, by, is_short) if version == 2 else (to != 0, by != 0 and not is_short)
    found.take(2 if pans[0] else 0)
    receiver = found.take(_SIZES[to])[::-1]
    found.take(2 if pans[1] else 0)
    sender = found.take(_SIZES[by])[::-1]
    return _Header(control & 7, sequence, sender or None, receiver or None, found.rest())


def _pans_of_2015(to: int, by: int, is_short: int) -> tuple[bool, bool]:
    """Whether a frame of version 2015 has the receiver's PAN, and the sender's (table 7-2)."""
    if to == 0 and by == 0:
        return bool(is_short), False
    if to == _LONG and by == _LONG:
        return not is_short, False
    if to != 0 and by != 0:
        return True, not is_short
    return to != 0 and not is_short, by != 0 and not is_short


# Compressed headers.

def _unicast(found: _Bytes, has_context: bool, mode: int, link: bytes | None) -> bytes:
    """An address by its mode (RFC 6282, section 3.1.1)."""
    if mode == 0:
        return bytes(16) if has_context else found.take(16)
    prefix = CONTEXT_0 if has_context else _LINK_LOCAL
    if mode == 1:
        return prefix + found.take(8)
    short = found.take(2) if mode == 2 else link
    _require(short is not None)
    assert short is not None
    return prefix + (_flipped(short) if len(short) == 8 else bytes([0, 0, 0, 0xff, 0xfe, 0]) + short)


def _multicast(found: _Bytes, mode: int) -> bytes:
    if mode == 0:
        return found.take(16)
    scope = 2 if mode == 3 else found.number()
    end = found.take({1: 5, 2: 3, 3: 1}[mode])
    return bytes([0xff, scope]) + bytes(14 - len(end)) + end


def _expand(found: _Bytes, sender: bytes | None, receiver: bytes | None, size: int | None = None) -> bytes:
    """A packet, or its beginning, whose headers are compressed (RFC 6282, section 3). ``size`` is that of the whole packet, of which this
    is the first fragment."""
    first, second = found.number(), found.number()
    _require(first >> 5 == 3)
    _require(not second & 0x80 or found.number() == 0)
    found.take({0: 4, 1: 3, 2: 1, 3: 0}[first >> 3 & 3])
    is_next = bool(first & 4)
    protocol = 0 if is_next else found.number()
    limit = (0, 1, 64, 255)[first & 3] or found.number()
    source = _unicast(found, bool(second & 0x40), second >> 4 & 3, sender)
    if second & 8:
        _require(not second & 4)
        destination = _multicast(found, second & 3)
    else:
        _require(second & 7 != 4)
        destination = _unicast(found, bool(second & 4), second & 3, receiver)
    whole = None if size is None else size - 40
    if is_next:
        # A packet within this one has left out what is in these addresses (section 3.2.2).
        protocol, content = _expand_next(found, _flipped(source[8:]), _flipped(destination[8:]), whole)
    else:
        content = found.rest()
    length = len(content) if whole is None else whole
    _require(0 <= length < 1 << 16)
    return bytes([0x60, 0, 0, 0, length >> 8, length & 255, protocol, limit]) + source + destination + content


def _expand_next(found: _Bytes, sender: bytes | None, receiver: bytes | None, size: int | None) -> tuple[int, bytes]:
    """The protocol and the bytes of what follows a header (section 4). ``size`` is the number of bytes of all that, where it is known."""
    encoding = found.number()
    if encoding >> 3 == 0x1e:
        return _UDP, _expand_udp(found, encoding, size)
    _require(encoding >> 4 == 0xe)
    if encoding == 0xee:
        return _IPV6, _expand(found, sender, receiver, size)
    extension = _EXTENSIONS.get(encoding >> 1 & 7)
    _require(extension is not None)
    assert extension is not None
    inline = None if encoding & 1 else found.number()
    body = found.take(found.number())
    # Padding at the end of options may be left out. A byte 0 is the option Pad1.
    body += bytes(-(2 + len(body)) % 8)
    length = 2 + len(body)
    left = None if size is None else size - length
    protocol, content = (inline, found.rest()) if inline is not None else _expand_next(found, sender, receiver, left)
    return extension, bytes([protocol, length // 8 - 1]) + body + content


def _expand_udp(found: _Bytes, encoding: int, size: int | None) -> bytes:
    """The header of UDP and what follows it (section 4.3)."""
    mode = encoding & 3
    if mode == 3:
        both = found.number()
        ports = 0xf0b0 | both >> 4, 0xf0b0 | both & 15
    else:
        by = 0xf000 | found.number() if mode == 2 else found.number(2)
        ports = by, 0xf000 | found.number() if mode == 1 else found.number(2)
    checksum = 0 if encoding & 4 else found.number(2)
    content = found.rest()
    length = 8 + len(content) if size is None else size
    _require(8 <= length < 1 << 16)
    return b"".join(number.to_bytes(2, "big") for number in (*ports, length, checksum)) + content


# Packets.

_Fields = dict[str, Any]


def read_packet(packet: bytes) -> _Fields:
    """The fields of a whole packet of IPv6 (RFC 8200)."""
    found = _Bytes(packet)
    head = found.take(40)
    _require(head[0] >> 4 == 6 and int.from_bytes(head[4:6], "big") == len(packet) - 40)
    destination, protocol = head[24:40], head[6]
    while protocol in _OPTIONS or protocol == _ROUTING:
        following, eights = found.number(), found.number()
        body = found.take(8 * eights + 6)
        if protocol == _ROUTING:
            destination = _last_hop(body, destination)
        protocol = following
    if protocol == _IPV6:
        return read_packet(found.rest())
    fields: _Fields = {"kind": FrameKind.OTHER, "source": IPv6Address(head[8:24]), "destination": IPv6Address(destination),
                       "hop_limit": head[7]}
    if protocol == _UDP:
        ports, length = (found.number(2), found.number(2)), found.number(2)
        found.take(2)
        payload = found.rest()
        _require(length == 8 + len(payload))
        fields.update(kind=FrameKind.UDP, ports=ports, payload=payload)
    elif protocol == _ICMP:
        icmp = found.number(), found.number()
        found.take(2)
        body = found.rest()
        fields.update(_read_icmp(*icmp, body), icmp=icmp, payload=body)
    return fields


def _last_hop(body: bytes, destination: bytes) -> bytes:
    """Whom a packet is for after the hops of its routing header (RFC 6554, section 3), whose first two bytes aren't part of ``body``."""
    _require(body[0] == 3 or body[1] == 0)
    if body[1] == 0:
        return destination
    inner, last, padding = 16 - (body[2] >> 4), 16 - (body[2] & 15), body[3] >> 4
    addresses = len(body) - 6 - padding
    _require(addresses >= last and (addresses - last) % inner == 0 and body[1] <= (addresses - last) // inner + 1)
    end = len(body) - padding
    return destination[:16 - last] + body[end - last:end]


def _read_icmp(kind: int, code: int, body: bytes) -> _Fields:
    """The kind of a message of ICMPv6 (RFC 4443), and what one of RPL says."""
    if kind in _ERRORS:
        _require(len(body) >= 4)
        return {"kind": FrameKind.ERROR}
    if kind in (128, 129):
        _require(len(body) >= 4)
        return {"kind": FrameKind.ECHO_REQUEST if kind == 128 else FrameKind.ECHO_REPLY}
    if kind != 155 or code > 3:
        return {}
    found = _Bytes(body)
    if code == 0:
        found.take(2)
        list(_options(found))
        return {"kind": FrameKind.DIS}
    if code == 1:
        return {"kind": FrameKind.DIO, "rpl": _read_dio(found)}
    if code == 2:
        return {"kind": FrameKind.DAO, "rpl": _read_dao(found)}
    head = found.take(4)
    found.take(16 if head[1] & 0x80 else 0)
    return {"kind": FrameKind.DAO_ACK, "rpl": DaoAck(head[0], head[2], head[3])}


def _options(found: _Bytes) -> Iterator[tuple[int, bytes]]:
    """The options of a message of RPL (RFC 6550, section 6.7): type and content."""
    while found.at < len(found.data):
        kind = found.number()
        if kind != 0:
            yield kind, found.take(found.number())


def _read_dio(found: _Bytes) -> Dio:
    head = found.take(8)
    dodag = IPv6Address(found.take(16))
    list(_options(found))
    return Dio(head[0], head[1], int.from_bytes(head[2:4], "big"), head[4] >> 3 & 7, dodag)


def _read_dao(found: _Bytes) -> Dao:
    """A DAO. Its transit information is about the targets before it (section 6.7.8)."""
    head = found.take(4)
    found.take(16 if head[1] & 0x40 else 0)
    routes: list[Route] = []
    targets: list[IPv6Address] = []
    is_transit = False
    for kind, option in _options(found):
        if kind == 5:
            _require(len(option) >= 2)
            targets = [] if is_transit else targets
            is_transit = False
            targets += [IPv6Address(option[2:])] if option[1] == 128 and len(option) == 18 else []
        elif kind == 6:
            _require(len(option) in (4, 20))
            is_transit = True
            parent = IPv6Address(option[4:]) if len(option) == 20 else None
            routes += [Route(target, parent, option[3]) for target in targets]
    return Dao(head[0], head[3], bool(head[1] & 0x80), tuple(routes))


# Frames.

def _packet_of(header: _Header) -> tuple[Fragment | None, bytes] | None:
    """A fragment and its bytes in the packet, or None and the whole packet; None where a data frame has no packet."""
    found = _Bytes(header.content)
    if not header.content:
        return None
    first = header.content[0]
    if first == 0x41:
        return None, header.content[1:]
    if first >> 5 == 3:
        return None, _expand(found, header.sender, header.receiver)
    if first >> 3 not in (0x18, 0x1c):
        return None
    size, tag = found.number(2) & 0x7ff, found.number(2)
    if first >> 3 == 0x1c:
        at, part = 8 * found.number(), found.rest()
    else:
        at, is_plain = 0, header.content[4:5] == b"\x41"
        part = header.content[5:] if is_plain else _expand(found, header.sender, header.receiver, size)
    end = at + len(part)
    _require(part != b"" and end <= size and (end % 8 == 0 or end == size))
    return Fragment(size, tag, at), part


class ReadFrame(NamedTuple):
    """A frame, and of a fragment its bytes in the packet."""

    frame: Ipv6Frame
    part: bytes = b""


def read_with_part(data: bytes) -> ReadFrame:
    fields: _Fields = {}
    try:
        header = _read_header(data)
        fields = {"sequence": header.sequence, "sender": header.sender, "receiver": header.receiver}
        if header.kind == 2:
            _require(header.content == b"")
            return ReadFrame(Ipv6Frame(FrameKind.ACK, **fields))
        _require(header.kind == 1)
        found = _packet_of(header)
        if found is None:
            return ReadFrame(Ipv6Frame(FrameKind.DATA, **fields, payload=header.content))
        fragment, packet = found
        if fragment is not None:
            return ReadFrame(Ipv6Frame(FrameKind.FRAGMENT, **fields, fragment=fragment), packet)
        return ReadFrame(Ipv6Frame(**fields, **read_packet(packet)))
    except Malformed:
        return ReadFrame(Ipv6Frame(FrameKind.OTHER, **fields))


def read_frame(data: bytes) -> Ipv6Frame:
    """What a frame is, from its bytes. Malformed bytes are of the kind OTHER; only a wrong type raises an exception. Checksums aren't
    compared: the motes do that."""
    if not isinstance(data, (bytes, bytearray, memoryview)):
        raise WrongType(f"a frame must be bytes, not {type(data).__name__}")
    return read_with_part(bytes(data)).frame
