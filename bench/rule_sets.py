#!/usr/bin/env python3
"""Writes rules and payloads for the benchmark of many rules.

rule_sets.py rules KIND COUNT FILE: so many rules for any protocol. KIND is `random` (7 to 16 random
bytes), `text` (7 to 16 random letters), `folded` (the same with `nocase`), `short` (one byte) or
`prefix` (60 times the letter a, and then four digits).

rule_sets.py frames KIND COUNT FILE: a capture of so many ICMP datagrams with 1,400 bytes of payload.
KIND is `random`, `text` (words) or `prefix` (the letter a alone).
"""
import random
import struct
import sys

WORDS = b"the quick server answer GET HTTP content length user agent accept host example cookie".split()


def pattern(kind, number):
    if kind == "short":
        return '"|%02x|"' % (number % 256)
    if kind == "prefix":
        return '"' + "a" * 60 + "%04d" % number + '"'
    size = random.randint(7, 16)
    if kind == "random":
        return '"|' + " ".join("%02x" % random.getrandbits(8) for _ in range(size)) + '|"'
    return '"' + "".join(random.choice("abcdefghijklmnopqrstuvwxyz") for _ in range(size)) + '"'


def rules(kind, count):
    end = " nocase" if kind == "folded" else ""
    for number in range(count):
        yield f"rule r{number} proto any has {pattern(kind, number)}{end}\n".encode()


def payload(kind):
    if kind == "prefix":
        return b"a" * 1400
    if kind == "random":
        return bytes(random.getrandbits(8) for _ in range(1400))
    text = b""
    while len(text) < 1400:
        text += random.choice(WORDS) + random.choice([b" ", b"\r\n", b": ", b";"])
    return text[:1400]


def frames(kind, count):
    yield struct.pack("<IHHIIII", 0xA1B2C3D4, 2, 4, 0, 0, 262144, 1)
    for number in range(count):
        header = struct.pack(">BBHHHBBHII", 0x45, 0, 1420, number, 0, 64, 1, 0, 0x0A000001, 0xC0000201)
        frame = bytes.fromhex("0200000000020200000000010800") + header + payload(kind)
        yield struct.pack("<IIII", number, 0, len(frame), len(frame)) + frame


def main():
    what, kind, count, name = sys.argv[1:5]
    random.seed(what + kind)
    with open(name, "wb") as file:
        for piece in {"rules": rules, "frames": frames}[what](kind, int(count)):
            file.write(piece)


main()
