"""What the datagrams of a link carry, and how tunnels and the main stream are cut."""

from __future__ import annotations

import struct
from dataclasses import dataclass, field
from typing import Callable, Iterator, NamedTuple, Union

# MS-RDPEUDP section 2.2.2.1
SYN, ACK, DATA, FEC, ACK_OF_ACKS = 0x0001, 0x0004, 0x0008, 0x0010, 0x0100
CORRELATION_ID, SYNEX = 0x0800, 0x1000
NEVER_IN_A_SYN = 0x01FA

VECTOR_AT_MOST = 2048
RESERVED_STATES = (1, 2)

# MS-RDPEUDP2 section 2.2
ACK2, DATA2, ACKVEC2, ACK_OF_ACKS2 = 0x001, 0x004, 0x008, 0x010
OVERHEAD_SIZE2, DELAY_ACK_INFO2 = 0x040, 0x100
ACK_OR_VECTOR2 = ACK2 | ACKVEC2
FLAGS2 = ACK_OR_VECTOR2 | DATA2 | ACK_OF_ACKS2 | OVERHEAD_SIZE2 | DELAY_ACK_INFO2
DATA_PACKET, DUMMY_PACKET = 0, 8
DATAGRAM_AT_MOST = 1232
SECOND_LAYOUT_VERSION = 0x0101

# The kinds of a frame of the main stream, and how long the bytes of each may be.
TUNNEL_REQUEST, TUNNEL_RESPONSE, CHANNEL_PDU = 1, 2, 3
FRAME_BYTES = {
    TUNNEL_REQUEST: (24, 24),
    TUNNEL_RESPONSE: (8, 8),
    CHANNEL_PDU: (1, 1600),
}

# The actions of a tunnel PDU (MS-RDPEMT section 2.2.1.1), and their payloads' lengths.
CREATE_REQUEST, CREATE_RESPONSE, TUNNEL_DATA = 0, 1, 2
PAYLOADS = {CREATE_REQUEST: (24, 24), CREATE_RESPONSE: (4, 4), TUNNEL_DATA: (0, 1600)}
TUNNEL_HEADER = 4

Bytes = Union[bytes, bytearray]


class Unreadable(Exception):
    """Bytes that their layout doesn't read, and why."""


class Opening(NamedTuple):
    """A SYN or SYN+ACK (MS-RDPEUDP sections 2.2.2.5 and 2.2.2.9)."""

    answers: bool
    ack: int
    initial: int
    version: int


class Part(NamedTuple):
    """The part that a datagram carries: its number as it is shown, and its bytes."""

    shown: int
    data: bytes


def read_opening(datagram: bytes) -> Opening | None:
    """Reads a SYN or SYN+ACK; one that names no version shows 0x0001."""
    if len(datagram) < 16:
        return None
    ack, _, flags, initial = struct.unpack_from(">IHHI", datagram)
    if not flags & SYN or flags & NEVER_IN_A_SYN:
        return None
    version = 0x0001
    extension = 48 if flags & CORRELATION_ID else 16
    if flags & SYNEX and len(datagram) >= extension + 4:
        names, named = struct.unpack_from(">HH", datagram, extension)
        version = named if names & 0x0001 else version
    return Opening(bool(flags & ACK), ack, initial, version)


def read_first_layout(datagram: bytes) -> Part | None:
    """Reads the part of a datagram of MS-RDPEUDP section 2.2, if it carries one."""
    flags = struct.unpack_from(">H", datagram, 6)[0]
    if flags & SYN:
        raise Unreadable
    at = end_of_vector(datagram) if flags & ACK else 8
    at += 4 if flags & ACK_OF_ACKS else 0
    data = at + (8 if flags & DATA else 0) + (4 if flags & DATA and flags & FEC else 0)
    if data > len(datagram):
        raise Unreadable
    if not flags & DATA or flags & FEC:
        return None
    return Part(struct.unpack_from(">I", datagram, at + 4)[0], datagram[data:])


def end_of_vector(datagram: bytes) -> int:
    """Where a vector ends, with its padding (MS-RDPEUDP section 2.2.2.7)."""
    size: int = struct.unpack_from(">H", datagram, 8)[0]
    elements = datagram[10 : 10 + size]
    if size > VECTOR_AT_MOST or any(e >> 6 in RESERVED_STATES for e in elements):
        raise Unreadable
    return 8 + (2 + size + 3) // 4 * 4


def without_prefix(datagram: bytes) -> tuple[int, bytes]:
    """The packet type of a datagram of MS-RDPEUDP2 section 2.2, and its packet."""
    if not 8 <= len(datagram) <= DATAGRAM_AT_MOST:
        raise Unreadable
    prefix = datagram[7]
    packet_type, length = prefix >> 1 & 0x0F, prefix >> 5
    packet = datagram[1:7] + datagram[:1] + datagram[8:]
    if length == 7:
        return packet_type, packet
    if length < 2 or len(datagram) > 8:
        raise Unreadable
    return packet_type, packet[:length]


def read_second_layout(datagram: bytes) -> Part | None:
    """Reads the part of a datagram of MS-RDPEUDP2 section 2.2, if it carries one."""
    packet_type, packet = without_prefix(datagram)
    flags = struct.unpack_from("<H", packet)[0] & 0x0FFF
    is_known = packet_type in (DATA_PACKET, DUMMY_PACKET) and not flags & ~FLAGS2
    if not is_known or flags & ACK_OR_VECTOR2 == ACK_OR_VECTOR2:
        raise Unreadable
    at = end_of_fields2(flags, packet)
    carries = packet_type == DATA_PACKET and flags & DATA2
    end = at + (2 if carries else 0)
    is_ended = carries or packet_type == DUMMY_PACKET or end == len(packet)
    if end > len(packet) or not is_ended:
        raise Unreadable
    if not carries:
        return None
    return Part(struct.unpack_from("<H", packet, at)[0], packet[end:])


def end_of_fields2(flags: int, packet: bytes) -> int:
    """Where the fields of a packet end, up to its acknowledgement vector."""
    at = 2
    if flags & ACK2:
        at += 7 + (packet[at + 6] & 0x0F)
    at += 1 if flags & OVERHEAD_SIZE2 else 0
    at += 3 if flags & DELAY_ACK_INFO2 else 0
    at += 2 if flags & ACK_OF_ACKS2 else 0
    at += 2 if flags & DATA2 else 0
    if flags & ACKVEC2:
        size = packet[at + 2]
        at += 3 + (size & 0x7F) + (4 if size & 0x80 else 0)
    return at


class Layout(NamedTuple):
    """How a link's datagrams are read once its ends agreed; how far numbers go."""

    read: Callable[[bytes], Part | None]
    modulus: int


FIRST_LAYOUT = Layout(read_first_layout, 2**32)
SECOND_LAYOUT = Layout(read_second_layout, 2**16)


def near(reference: int, low: int, modulus: int) -> int:
    """The number that is shown as this low part, nearest to the reference."""
    ahead = (low - reference) % modulus
    return reference + (ahead if ahead < modulus // 2 else ahead - modulus)


@dataclass
class Parts:
    """The parts that one side gave on a link, by their full numbers."""

    following: int
    modulus: int
    waiting: dict[int, bytes] = field(default_factory=dict)
    alone_before: set[int] = field(default_factory=set)

    def number(self, part: Part) -> int:
        """The full number of a part, nearest to the one behind those that came."""
        return near(self.following, part.shown, self.modulus)

    def in_order(self, part: Part) -> bytes:
        """Takes a part, and gives the bytes that are in order now, each once."""
        number = self.number(part)
        if number >= self.following:
            self.waiting.setdefault(number, part.data)
        joined = bytearray()
        while self.following in self.waiting:
            joined += self.waiting.pop(self.following)
            self.following += 1
        return bytes(joined)

    def alone(self, part: Part) -> tuple[int, bytes] | None:
        """Takes a part that stands for itself, and gives its number and bytes, once."""
        number = self.number(part)
        if number in self.alone_before:
            return None
        self.alone_before.add(number)
        self.following = max(self.following, number + 1)
        return number, part.data


class Link:
    """A link as its datagrams show it: its layout, and the parts of both sides."""

    def __init__(self) -> None:
        self.answer: Opening | None = None
        self.layout: Layout | None = None
        self.parts: dict[str, Parts] = {}

    def take_in_order(self, side: str, datagram: bytes) -> bytes:
        """Takes a datagram of a side, and gives the bytes that are in order now.

        Raises Unreadable where it is neither an opening nor of the link's layout.
        """
        part = self.part_of(datagram)
        return b"" if part is None else self.parts[side].in_order(part)

    def take_alone(self, side: str, datagram: bytes) -> tuple[int, bytes] | None:
        """Takes a datagram of a side, and gives its part with its number, once.

        Raises Unreadable where it is neither an opening nor of the link's layout.
        """
        part = self.part_of(datagram)
        return None if part is None else self.parts[side].alone(part)

    def part_of(self, datagram: bytes) -> Part | None:
        """The part of a datagram, in the layout that the link has by then."""
        opening = read_opening(datagram)
        if opening is not None:
            self.open(opening)
            return None
        if self.layout is None:
            raise Unreadable
        try:
            return self.layout.read(datagram)
        except (IndexError, struct.error):
            raise Unreadable from None

    def open(self, opening: Opening) -> None:
        """Takes the layout and the first part numbers from a SYN+ACK that is new."""
        if not opening.answers or opening == self.answer:
            return
        self.answer = opening
        if opening.version == SECOND_LAYOUT_VERSION:
            self.layout, server, client = SECOND_LAYOUT, 1, 1
        else:
            self.layout = FIRST_LAYOUT
            server, client = opening.initial + 1, opening.ack + 1
        modulus = self.layout.modulus
        self.parts = {
            "server": Parts(server, modulus),
            "client": Parts(client, modulus),
        }


def frame_length(data: Bytes) -> int | None:
    """The length of a frame of the main stream, None while it can't be told."""
    if data and data[0] not in FRAME_BYTES:
        raise Unreadable(f"kind {data[0]}")
    if len(data) < 3:
        return None
    length: int = struct.unpack_from("<H", data, 1)[0]
    least, most = FRAME_BYTES[data[0]]
    if not least <= length <= most:
        raise Unreadable(f"length {length}")
    return 3 + length


def tunnel_length(data: Bytes) -> int | None:
    """The length of a tunnel PDU, None while it can't be told. Its flags are 0."""
    if data and data[0] not in PAYLOADS:
        raise Unreadable(f"first byte {data[0]}")
    if len(data) < TUNNEL_HEADER:
        return None
    payload: int
    header: int
    payload, header = struct.unpack_from("<HB", data, 1)
    least, most = PAYLOADS[data[0]]
    if not least <= payload <= most or header < TUNNEL_HEADER:
        raise Unreadable(f"lengths {payload} and {header}")
    return header + payload


def is_tunnel_pdu(data: bytes) -> bool:
    """Whether bytes are one whole tunnel PDU."""
    try:
        return tunnel_length(data) == len(data)
    except Unreadable:
        return False


class Stream:
    """Bytes that come in any pieces, cut into values each of which tells its length."""

    def __init__(self, length_of: Callable[[Bytes], int | None]) -> None:
        self.length_of = length_of
        self.place = 0
        self.rest = bytearray()
        self.is_broken = False

    def take(self, data: bytes) -> Iterator[tuple[int, bytes]]:
        """Takes bytes, and gives each value that is whole now, with its place.

        Raises Unreadable at bytes that are no value, once; what comes behind them is
        passed over.
        """
        if self.is_broken:
            return
        self.rest += data
        while (length := self.next_length()) is not None and length <= len(self.rest):
            value = bytes(self.rest[:length])
            del self.rest[:length]
            self.place += length
            yield self.place - length, value

    def next_length(self) -> int | None:
        """The length of the next value, None where it can't be told yet."""
        try:
            return self.length_of(self.rest)
        except Unreadable:
            self.is_broken = True
            raise
