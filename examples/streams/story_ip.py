#!/usr/bin/env python3
"""Writes story.ip, the IP packets that `make demo` sends, to standard output.

The packets are UDP datagrams to groups of listeners, in addresses that are kept for examples, with checksums that hold
and with data that look random. Their lengths are chosen for the places at which they stand in the payload words;
README.md beside this file says which.
"""

import sys

# As opl.h has packet types.
IPV4, IPV6 = 1, 2
UDP = 17

# From 192.0.2.1 to 233.252.0.1, and from 2001:db8::1 to ff0e::db8:0:1.
ADDRESSES = {
    IPV4: bytes([192, 0, 2, 1, 233, 252, 0, 1]),
    IPV6: bytes.fromhex("20010db8" + 23 * "0" + "1" + "ff0e" + 16 * "0" + "0db800000001"),
}
PORT = 5004

# Each packet's type, and its length with all headers. The one at ERRONEOUS has a byte changed on its way here.
PACKETS = [
    (IPV4, 40), (IPV4, 576), (IPV4, 1500), (IPV6, 4095), (IPV6, 1280), (IPV4, 40), (IPV4, 512), (IPV4, 1500),
    (IPV6, 204), (IPV4, 1400), (IPV6, 861), (IPV4, 1500), (IPV4, 500), (IPV6, 1280), (IPV4, 60), (IPV6, 620),
    (IPV4, 3000), (IPV4, 400), (IPV6, 1200), (IPV6, 48), (IPV4, 397), (IPV6, 1152), (IPV4, 348), (IPV4, 1000),
    (IPV4, 76), (IPV6, 200),
]
ERRONEOUS = 17


def data(number, length):
    """Bytes that look random, others for each packet: the top of Knuth's linear congruential generator of 64 bits."""
    state, found = number, bytearray()
    for _ in range(length):
        state = (state * 6364136223846793005 + 1442695040888963407) % 2**64
        found.append(state >> 56)
    return bytes(found)


def two(number):
    return number.to_bytes(2, "big")


def checksum(covered):
    """The internet checksum (RFC 1071): the inverted sum of all pairs of bytes, with the carry added in."""
    covered += bytes(len(covered) % 2)
    total = sum(int.from_bytes(covered[i:i + 2], "big") for i in range(0, len(covered), 2))
    while total > 0xFFFF:
        total = (total & 0xFFFF) + (total >> 16)
    return two(0xFFFF - total)


def datagram(addresses, payload):
    """A UDP datagram. Its checksum covers the addresses too, the protocol and the length."""
    length = two(8 + len(payload))
    ports = 2 * two(PORT)
    covered = addresses + bytes([0, UDP]) + length + ports + length + payload
    return ports + length + checksum(covered) + payload


def ipv4(number, length):
    """Version 4 with a header of five words; the packet's number is its identification, and its TTL is 16."""
    addresses = ADDRESSES[IPV4]
    before = bytes([0x45, 0]) + two(length) + two(number) + bytes([0x40, 0, 16, UDP])
    header = before + checksum(before + addresses) + addresses
    return header + datagram(addresses, data(number, length - len(header) - 8))


def ipv6(number, length):
    """Version 6 with no extension header and hop limit 16."""
    addresses = ADDRESSES[IPV6]
    header = bytes([0x60, 0, 0, 0]) + two(length - 40) + bytes([UDP, 16]) + addresses
    return header + datagram(addresses, data(number, length - len(header) - 8))


def entry(number, kind, length):
    """A packet as a queue has it: type, error, length in two bytes, data."""
    packet = bytearray((ipv4 if kind == IPV4 else ipv6)(number, length))
    if number == ERRONEOUS:
        packet[-1] ^= 0x10
    return bytes([kind, number == ERRONEOUS]) + two(length) + packet


for number, (kind, length) in enumerate(PACKETS):
    sys.stdout.buffer.write(entry(number, kind, length))
