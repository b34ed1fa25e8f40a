"""Frames as a file of packets that tshark and Wireshark read (pcap), by the standard library alone."""
from __future__ import annotations

import os
import struct
from collections.abc import Iterable
from typing import Union

from .errors import BadInput
from .links import check_number
from .network_transcript import Frame

PathLike = Union[str, "os.PathLike[str]"]

# IEEE 802.15.4 without the frame check sequence: LINKTYPE_IEEE802_15_4_NOFCS.
LINK_TYPE = 230
# The times have nanoseconds, which are exact for 1,000 and for 128 ticks a second.
_MAGIC = 0xA1B23C4D
_LONGEST = 65535
_HEAD, _PACKET = struct.Struct("<IHHiIII"), struct.Struct("<IIII")
TICKS_OF_A_SECOND = 128
"""The default of CLOCK_SECOND, as for ``network-picture --pcap``."""


def packets(frames: Iterable[Frame], ticks_of_a_second: int = TICKS_OF_A_SECOND) -> bytes:
    """The bytes of such a file.

    >>> len(packets([Frame(192, 1, b"hi")])), packets([Frame(192, 1, b"hi")])[24:32]
    (42, b'\\x01\\x00\\x00\\x00\\x00e\\xcd\\x1d')
    """
    rate = check_number("ticks_of_a_second", ticks_of_a_second, 1, 10**9)
    made = [_HEAD.pack(_MAGIC, 2, 4, 0, 0, _LONGEST, LINK_TYPE)]
    for frame in frames:
        seconds, rest = divmod(frame.clock, rate)
        if seconds >= 2**32:
            raise BadInput(f"clock {frame.clock} is beyond what a file of packets can have")
        made += [_PACKET.pack(seconds, rest * 10**9 // rate, len(frame.data), len(frame.data)), frame.data]
    return b"".join(made)


def write_packets(path: PathLike, frames: Iterable[Frame], ticks_of_a_second: int = TICKS_OF_A_SECOND) -> None:
    """Writes such a file."""
    data = packets(frames, ticks_of_a_second)
    with open(path, "wb") as opened:
        opened.write(data)
