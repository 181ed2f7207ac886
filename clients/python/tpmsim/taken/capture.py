"""Reads captures of packets: pcapng, which libtss2's pcap module writes, and pcap."""

import struct
from dataclasses import dataclass
from typing import Iterator

from tpmsim.taken.buffers import Buffer, within

SECTION, INTERFACE, PACKET = 0x0A0D0D0A, 1, 6
# The numbers at the beginning of a pcap file, with times in microseconds and in nanoseconds.
PCAP = 0xA1B2C3D4, 0xA1B23C4D
PCAP_HEADER, PACKET_HEADER = 24, 16
BYTE_ORDER = 0x1A2B3C4D

# The size of the header in front of the Internet Protocol's, by link type.
LINK_BYTES = {0: 4, 1: 14, 12: 0, 101: 0, 113: 16, 228: 0, 229: 0, 276: 20}

TCP = 6
# The ports at which a simulator receives commands, if both ports of a packet are high.
COMMAND_PORTS = 2321, 2322


@dataclass(frozen=True)
class Packet:
    link: int
    data: bytes


def is_capture(data: bytes) -> bool:
    """Whether bytes begin like a capture."""
    return bool(order_of(data[:4])) or data[:4] == SECTION.to_bytes(4, "big")


def order_of(magic: bytes) -> str:
    """Returns the order of the bytes in a pcap file, as struct has it; empty for another file."""
    orders = {"<": "little", ">": "big"}
    for order in orders:
        if len(magic) == 4 and struct.unpack(f"{order}I", magic)[0] in PCAP:
            return order
    return ""


def buffers_of(data: bytes) -> Iterator[Buffer]:
    """Yields the commands and responses of a capture, each with the number of its packet."""
    order = order_of(data[:4])
    packets = packets_of_pcap(data, order) if order else packets_of_pcapng(data)
    for number, packet in enumerate(packets, 1):
        payload, is_response = payload_of(packet)
        for it in within(payload):
            yield Buffer(number, it, is_response)


def packets_of_pcap(data: bytes, order: str) -> Iterator[Packet]:
    if len(data) < PCAP_HEADER:
        return
    link = struct.unpack_from(f"{order}I", data, 20)[0] & 0xFFFF
    at = PCAP_HEADER
    while at + PACKET_HEADER <= len(data):
        size = struct.unpack_from(f"{order}I", data, at + 8)[0]
        yield Packet(link, data[at + PACKET_HEADER : at + PACKET_HEADER + size])
        at += PACKET_HEADER + size


def packets_of_pcapng(data: bytes) -> Iterator[Packet]:
    at, order, links = 0, "<", list[int]()
    while at + 12 <= len(data):
        if data[at : at + 4] == SECTION.to_bytes(4, "big"):
            is_little = struct.unpack_from("<I", data, at + 8)[0] == BYTE_ORDER
            order, links = "<" if is_little else ">", []
        kind, size = struct.unpack_from(f"{order}II", data, at)
        body = data[at + 8 : at + size - 4]
        if kind == INTERFACE and len(body) >= 2:
            links.append(struct.unpack_from(f"{order}H", body)[0])
        elif kind == PACKET and len(body) >= 20:
            interface, _, _, captured = struct.unpack_from(f"{order}IIII", body)
            link = links[interface] if interface < len(links) else 0
            yield Packet(link, body[20 : 20 + captured])
        if size < 12:
            return
        at += size


def payload_of(packet: Packet) -> tuple[bytes, bool | None]:
    """Returns what a packet of TCP transports, and whether it comes from a known port for commands.
    Another packet is returned whole.
    """
    data = packet.data[LINK_BYTES.get(packet.link, 0) :]
    version = data[0] >> 4 if data else 0
    header = 4 * (data[0] & 15) if version == 4 else 40 if version == 6 else 0
    protocol = data[9 if version == 4 else 6] if header and len(data) > header else 0
    if protocol != TCP or len(data) < header + 20:
        return packet.data, None
    source, target = struct.unpack_from(">HH", data, header)
    front = header + 4 * (data[header + 12] >> 4)
    is_known = source in COMMAND_PORTS or target in COMMAND_PORTS
    return data[front:], source in COMMAND_PORTS if is_known else None
