"""The packets of a pcapng file: UDP over IPv4, and PDUs as Wireshark exports them."""

from __future__ import annotations

import struct
from typing import NamedTuple

SERVER_PORT = 3389
CLIENT_PORTS = {"reliable": 49152, "lossy": 49153, "main": 49154}
ADDRESSES = {"server": bytes([192, 0, 2, 1]), "client": bytes([192, 0, 2, 2])}
OTHER_SIDE = {"server": "client", "client": "server"}

LINKTYPE_IPV4 = 228
LINKTYPE_WIRESHARK_UPPER_PDU = 252
DATAGRAMS, PDUS = 0, 1
UDP = 17
UDP_ROOM = 65_507

OPT_COMMENT, SHB_APPLICATION, IF_NAME = 1, 4, 2

TAG_END, TAG_DISSECTOR, TAG_IPV4_SOURCE, TAG_IPV4_DESTINATION = 0, 12, 20, 21
TAG_PORT_TYPE, TAG_SOURCE_PORT, TAG_DESTINATION_PORT = 24, 25, 26
TAG_PROTOCOL_COLUMN = 33
PORT_TYPES = {"reliable": 3, "lossy": 3, "main": 2}


class Ends(NamedTuple):
    """From where to where a packet goes."""

    source: bytes
    source_port: int
    destination: bytes
    destination_port: int


def ends_of(side: str, path: str) -> Ends:
    """The ends of what a side gives on a link, `reliable` or `lossy`, or on `main`."""
    ports = {"server": SERVER_PORT, "client": CLIENT_PORTS[path]}
    other = OTHER_SIDE[side]
    return Ends(ADDRESSES[side], ports[side], ADDRESSES[other], ports[other])


def checksum(data: bytes) -> int:
    """The checksum of the Internet's protocols (RFC 1071)."""
    even = data + bytes(len(data) % 2)
    total: int = sum(struct.unpack(f">{len(even) // 2}H", even))
    while total > 0xFFFF:
        total = (total & 0xFFFF) + (total >> 16)
    return 0xFFFF - total


def udp_datagram(ends: Ends, payload: bytes) -> bytes:
    """A UDP datagram (RFC 768)."""
    length = 8 + len(payload)
    pseudo = ends.source + ends.destination + struct.pack(">BBH", 0, UDP, length)
    ports = struct.pack(">HHH", ends.source_port, ends.destination_port, length)
    told = checksum(pseudo + ports + bytes(2) + payload) or 0xFFFF
    return ports + struct.pack(">H", told) + payload


def ipv4_packet(ends: Ends, payload: bytes) -> bytes:
    """An IPv4 packet that carries a UDP datagram (RFC 791), not to be fragmented."""
    before = struct.pack(">BBHHHBB", 0x45, 0, 20 + len(payload), 0, 0x4000, 64, UDP)
    behind = ends.source + ends.destination
    told = checksum(before + bytes(2) + behind)
    return before + struct.pack(">H", told) + behind + payload


def padded(data: bytes) -> bytes:
    """Bytes with zeros behind them, up to a multiple of four."""
    return data + bytes(-len(data) % 4)


def tag(number: int, value: bytes) -> bytes:
    """A tag of an exported PDU."""
    filled = padded(value)
    return struct.pack(">HH", number, len(filled)) + filled


class Shown(NamedTuple):
    """The dissector that Wireshark calls for a PDU, and what stands as its protocol."""

    dissector: str
    column: str


def exported_pdu(ends: Ends, path: str, shown: Shown, pdu: bytes) -> bytes:
    """A PDU on a link, or on the main stream, as Wireshark exports PDUs."""
    tags = (
        tag(TAG_DISSECTOR, shown.dissector.encode()),
        tag(TAG_PROTOCOL_COLUMN, shown.column.encode()),
        tag(TAG_IPV4_SOURCE, ends.source),
        tag(TAG_IPV4_DESTINATION, ends.destination),
        tag(TAG_PORT_TYPE, struct.pack(">I", PORT_TYPES[path])),
        tag(TAG_SOURCE_PORT, struct.pack(">I", ends.source_port)),
        tag(TAG_DESTINATION_PORT, struct.pack(">I", ends.destination_port)),
        tag(TAG_END, b""),
    )
    return b"".join(tags) + pdu


def block(number: int, body: bytes) -> bytes:
    """A block of a pcapng file."""
    length = 12 + len(body)
    return struct.pack("<II", number, length) + body + struct.pack("<I", length)


def options(code: int, text: str) -> bytes:
    """The options of a block: one text, and the end of the options."""
    value = text.encode()
    return struct.pack("<HH", code, len(value)) + padded(value) + bytes(4)


def file_header(program: str) -> bytes:
    """The blocks before the packets: a section, and an interface for either kind."""
    section = struct.pack("<IHHq", 0x1A2B3C4D, 1, 0, -1)
    datagrams = struct.pack("<HHI", LINKTYPE_IPV4, 0, 0)
    pdus = struct.pack("<HHI", LINKTYPE_WIRESHARK_UPPER_PDU, 0, 0)
    blocks = (
        block(0x0A0D0D0A, section + options(SHB_APPLICATION, program)),
        block(1, datagrams + options(IF_NAME, "datagrams")),
        block(1, pdus + options(IF_NAME, "PDUs")),
    )
    return b"".join(blocks)


def packet_block(interface: int, moment: int, packet: bytes, comment: str) -> bytes:
    """A packet at a moment, in microseconds, with a comment."""
    head = struct.pack("<IIIII", interface, 0, moment, len(packet), len(packet))
    return block(6, head + padded(packet) + options(OPT_COMMENT, comment))
