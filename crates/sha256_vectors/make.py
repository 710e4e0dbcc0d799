#!/usr/bin/env python3
"""Writes this program's `stdin` and `stdout`: make.py SHA256ShortMsg.rsp SHA256LongMsg.rsp

The arguments are the paths of NIST's two files of SHA-256 messages of whole bytes. First come published examples, with their digests
listed below; then every message of the two files, with its digest from the file; the others have their digests from a second source,
Python's hashlib. The script ends and writes nothing where hashlib does not give a digest that is listed or in a file, or where a file is
not in its format or has other lengths than listed below.
"""
import hashlib
import pathlib
import re
import sys

HERE = pathlib.Path(__file__).parent

# How often the part comes, the part, and the digest of the whole.
PUBLISHED = [
    # FIPS 180, and RFC 6234's tests of whole bytes: 1, 2, 3, 4, 6, 8 and 10
    (0, b"\0", "e3b0c44298fc1c149afbf4c8996fb92427ae41e4649b934ca495991b7852b855"),
    (1, b"abc", "ba7816bf8f01cfea414140de5dae2223b00361a396177a9cb410ff61f20015ad"),
    (1, b"abcdbcdecdefdefgefghfghighijhijkijkljklmklmnlmnomnopnopq",
     "248d6a61d20638b8e5c026930c3e6039a33ce45964ff2167f6ecedd419db06c1"),
    (1, b"abcdefghbcdefghicdefghijdefghijkefghijklfghijklmghijklmnhijklmnoijklmnopjklmnopqklmnopqrlmnopqrsmnopqrstnopqrstu",
     "cf5b16a778af8380036ce59e7b0492370b249b11e8f07a51afac45037afee9d1"),
    (1000000, b"a", "cdc76e5c9914fb9281a1c7e284d73e67f1809a48a497200e046d39ccc7112cd0"),
    (10, b"01234567" * 8, "594847328451bdfa85056225462cc1d867d877fb388df0ce35f25ab5562bfbb5"),
    (1, bytes.fromhex("19"), "68aa2e2ee5dff96e3355e6c7ee373e3d6a4e17f75f9518d843709c0c9bc3e3d4"),
    (1, bytes.fromhex("e3d72570dcdd787ce3887ab2cd684652"),
     "175ee69b02ba9b58e2b0a5fd13819cea573f3940a94f825128cf4209beabb4e8"),
    (1, bytes.fromhex(
        "8326754e2277372f4fc12b20527afef04d8a056971b11ad57123a7c137760000d7bef6f3c1f7a9083aa39d810db31077"
        "7dab8b1e7f02b84a26c773325f8b2374de7a4b5a58cb5c5cf35bcee6fb946e5bd694fa593a8beb3f9d6592ecedaa66ca"
        "82a29d0c51bcf9336230e5d784e4c0a43f8d79a30a165cbabe452b774b9c7109a97d138f129228966f6c0adc106aad5a"
        "9fdd30825769b2c671af6759df28eb393d54d6"),
     "97dbca7df46d62c8a422c941dd7e835b8ad3361763f7e9b2d95f4f0da6e1ccbc"),
    # NIST's additional examples for SHA-256
    (1, bytes.fromhex("bd"), "68325720aabd7c82f30f554b313d0570c95accbb7dc4b5aae11204c08ffe732b"),
    (1, bytes.fromhex("c98c8e55"), "7abc22c0ae5af26ce93dbb94433a0e0b2e119d014f8e7f65bd56c61ccccd9504"),
    (55, b"\0", "02779466cdec163811d078815c633f21901413081449002f24aa3e80f0b88ef7"),
    (56, b"\0", "d4817aa5497628e7c77e6b606107042bbba3130888c5f47a375e6179be789fbb"),
    (57, b"\0", "65a16cb7861335d5ace3c60718b5052e44660726da4cd13bb745381b235a1785"),
    (64, b"\0", "f5a5fd42d16a20302798ef6ed309979b43003d2320d9f0e8ea9831a92759fb4b"),
    (1000, b"\0", "541b3e9daa09b20bf85fa273e5cbd3e80185aa4ec298e765db87742b70138a53"),
    (1000, b"A", "c2e686823489ced2017f6059b8b239318b6364f6dcd835d0a519105a1eadd6e4"),
    (1005, b"U", "f4d62ddec0f3dd90ea1380fa16a5ff8dc4c54b21740650f24afc4120903552b0"),
    (1000000, b"\0", "d29751f2649b32ff572b5e0a9f541ea660a50f94ff0beedfb0b692b924cc8025"),
]

# The numbers of bytes that the messages of the two files have, in their order.
SHORT_LENGTHS = list(range(65))
LONG_LENGTHS = [64 + 99 * i for i in range(1, 65)]

RECORD = re.compile(r"Len = ([0-9]+)\nMsg = ([0-9a-f]+)\nMD = ([0-9a-f]{64})")


def message(length):
    return bytes((7 * i + length) % 256 for i in range(length))


def confirmed(count, part, digest):
    if hashlib.sha256(part * count).hexdigest() != digest:
        raise SystemExit(f"hashlib does not give {digest}")
    return count, part, digest


def record(path, text):
    """The case that a record of a file names. The empty message has the length 0 and a byte that does not count."""
    found = RECORD.fullmatch(text)
    if not found:
        raise SystemExit(f"{path}: not a record: {text[:60]!r}")
    bits, part, digest = int(found[1]), bytes.fromhex(found[2]), found[3]
    count = 0 if bits == 0 and part == b"\0" else 1
    if 8 * len(part) * count != bits:
        raise SystemExit(f"{path}: the message is not of {bits} bits")
    return confirmed(count, part, digest)


def published(path, lengths):
    lines = [line.strip() for line in pathlib.Path(path).read_text("ascii").splitlines()]
    head, *texts = re.split("\n{2,}", "\n".join(line for line in lines if not line.startswith("#")).strip())
    if head != "[L = 32]":
        raise SystemExit(f"{path}: not a file of SHA-256 messages")
    cases = [record(path, text) for text in texts]
    if [count * len(part) for count, part, _ in cases] != lengths:
        raise SystemExit(f"{path}: other lengths than those of NIST's file")
    return cases


def main():
    if len(sys.argv) != 3:
        raise SystemExit("usage: make.py SHA256ShortMsg.rsp SHA256LongMsg.rsp")
    cases = [confirmed(*case) for case in PUBLISHED]
    cases += published(sys.argv[1], SHORT_LENGTHS) + published(sys.argv[2], LONG_LENGTHS)
    # every length up to two blocks and more, as a whole; and some lengths in parts, for the cuts of a running state
    others = [(1, message(n)) for n in range(131)]
    others += [(count, message(n)) for n in (3, 31, 33, 55, 56, 63, 64, 65, 127, 128, 129, 200) for count in (2, 5)]
    cases += [(count, part, hashlib.sha256(part * count).hexdigest()) for count, part in others]
    (HERE / "stdin").write_text("".join(f"{count} {part.hex()}\n" for count, part, _ in cases))
    (HERE / "stdout").write_text("".join(f"{digest}\n" for _, _, digest in cases))


main()
