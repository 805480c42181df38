#!/usr/bin/env python3
"""Writes captures for the benchmark: captures.py KIND FRAMES FILE [pcapng].

With the last word it writes the same frames as a pcapng file, of one section and one interface.

KIND is `mixed` (whole UDP datagrams, other frames and datagrams in three fragments), `whole` (small whole
datagrams), `clashing` (8,192 places of one datagram, sent again and again; the last three lie beyond the
greatest datagram), `backwards` (the same, each a second earlier than the one before), `reused` (fragments
of one identification, each of which begins a generation), `descending` (datagrams in 8,189 fragments of 8
bytes, sent side by side from their ends), `long` (one datagram in so many fragments of 8 bytes, the last
one first), `large` (whole datagrams of 1,400 bytes), `single` (one fragment of each of so many datagrams),
`colliding` (the same, of keys that a hash table with a fixed seed puts side by side), or `example` (the
small capture in examples/; FRAMES is passed over). A frame's time is its number in seconds, where fragments
aren't to come at once or otherwise.
"""
import struct
import sys

ETHERNET = bytes.fromhex("020000000002020000000001")
SOURCE = bytes([10, 0, 0, 1])
DESTINATION = bytes([192, 0, 2, 1])


def file_header():
    return struct.pack("<IHHiIII", 0xA1B2C3D4, 2, 4, 0, 0, 262144, 1)


def record(seconds, frame):
    return struct.pack("<IIII", seconds, 0, len(frame), len(frame)) + frame


def block(kind, body):
    body += bytes(-len(body) % 4)
    size = struct.pack("<I", 12 + len(body))
    return struct.pack("<I", kind) + size + body + size


def section_header():
    section = block(0x0A0D0D0A, struct.pack("<IHHq", 0x1A2B3C4D, 1, 0, -1))
    return section + block(1, struct.pack("<HHI", 1, 0, 262144))


def enhanced_packet(seconds, frame):
    high, low = divmod(seconds * 1000000, 2**32)
    return block(6, struct.pack("<IIIII", 0, high, low, len(frame), len(frame)) + frame)


def ip(identification, offset, more, protocol, data, source=SOURCE):
    flags = (0x2000 if more else 0) | offset // 8
    header = struct.pack(">BBHHHBBH", 0x45, 0, 20 + len(data), identification, flags, 64, protocol, 0)
    return ETHERNET + b"\x08\x00" + header + source + DESTINATION + data


def udp(port, data):
    return struct.pack(">HHHH", 4000, port, 8 + len(data), 0) + data


def mixed(frames):
    number = 0
    while number < frames:
        source = struct.pack(">I", 0x0A000000 + number)
        text = bytes(97 + (number * 7 + i) % 26 for i in range(40))
        kind = number % 8
        if kind < 4:
            made = [ip(number & 0xFFFF, 0, False, 17, udp(53, text), source)]
        elif kind == 4:
            made = [ETHERNET + b"\x08\x06" + bytes(46)]
        else:
            body = udp(53, text)
            made = [ip(number & 0xFFFF, at, at < 32, 17, body[at:at + 16], source) for at in (32, 0, 16)]
        for frame in made[:frames - number]:
            yield frame
            number += 1


def clashing(frames):
    for number in range(frames):
        yield ip(1, 8 * (number % 8192), True, 1, b"aaaaaaaa")


def whole(frames):
    for number in range(frames):
        yield ip(number & 0xFFFF, 0, False, 1, b"aaaaaaaa")


def reused(frames):
    for _ in range(frames):
        yield ip(1, 0, True, 1, b"aaaaaaaa")


def descending(frames):
    keys = max(frames // 8189, 1)
    for number in range(frames):
        place = 8188 - number // keys % 8189
        yield ip(number % keys, 8 * place, place < 8188, 1, b"aaaaaaaa")


def long(frames):
    end = 8 * (frames - 1)
    yield ip(1, end, False, 1, b"aaaaaaaZ")
    for at in range(0, end, 8):
        yield ip(1, at, True, 1, b"aaaaaaaa")


def large(frames):
    for number in range(frames):
        text = bytes(97 + (number + i) % 26 for i in range(1400 - 42))
        yield ip(number & 0xFFFF, 0, False, 17, udp(53, text))


def single(frames):
    for number in range(frames):
        yield ip(number & 0xFFFF, 0, True, 1, b"aaaaaaaa", struct.pack(">I", 0x0A000000 + number // 65536))


MULTIPLIER = 0x9E3779B97F4A7C15
MASK = 2**64 - 1


def folded(state, short, length):
    """The state of the hasher that a map takes by default, after a number of so many bytes."""
    product = (state ^ short) * (MULTIPLIER ^ 2 * length)
    return product & MASK ^ product >> 64


def colliding(frames):
    """Keys whose hashes begin their search in the first 2,048 groups of a table of 32,768, which is as large
    as 262,144 keys make it. The hash is that by which groups were found before they were ordered: of the
    source, the destination, the protocol and the identification in turn, as 32 bits."""
    destination = int.from_bytes(DESTINATION, "big")
    factor = MULTIPLIER ^ 4
    shorts = [number & 0xFF | (number >> 8) * 0x10100 for number in range(65536)]
    source = 0x0A000000
    while frames > 0:
        state = 0x243F6A8885A308D3
        for number in (source, destination):
            state = folded(state, number | number << 32, 4)
        state = folded(state, 0x010101, 1)
        address = struct.pack(">I", source)
        for number, short in enumerate(shorts):
            product = (state ^ short) * factor
            product ^= product >> 64
            if (product ^ product >> 32) & 0x7800 == 0 and frames > 0:
                frames -= 1
                yield ip(number, 0, True, 1, b"aaaaaaaa", address)
        source += 1


def example(_frames):
    name = b"\x07example\x03com\x00"
    question = struct.pack(">HHHHHH", 1, 0x0100, 1, 0, 0, 0) + name + struct.pack(">HH", 1, 1)
    yield ETHERNET + b"\x08\x06" + bytes(46)
    yield ip(4, 0, False, 17, udp(53, question))
    yield ip(5, 8, False, 1, b"ijkl")
    yield ip(5, 0, True, 1, b"abcdefgh")
    yield ip(5, 0, True, 1, b"ABCDEFGH")
    yield ip(6, 0, True, 1, b"abcdefgh")


KINDS = {
    "mixed": mixed, "whole": whole, "clashing": clashing, "backwards": clashing, "reused": reused,
    "descending": descending, "long": long, "large": large, "single": single, "colliding": colliding,
    "example": example,
}

# The second of a frame by its number and that of all frames.
SECONDS = {
    "clashing": lambda number, frames: 0,
    "backwards": lambda number, frames: frames - number,
    "reused": lambda number, frames: 31 * number,
    "descending": lambda number, frames: 0,
    "long": lambda number, frames: 0,
}


def main():
    kind, frames, name = sys.argv[1], int(sys.argv[2]), sys.argv[3]
    head, packet = (section_header, enhanced_packet) if sys.argv[4:] == ["pcapng"] else (file_header, record)
    seconds = SECONDS.get(kind, lambda number, frames: number)
    with open(name, "wb") as out:
        out.write(head())
        for number, frame in enumerate(KINDS[kind](frames)):
            out.write(packet(seconds(number, frames), frame))


main()
