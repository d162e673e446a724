"""Reads orders as servers keep them on a disk, by the forms of docs/FORMATS.md."""
import glob
from struct import unpack_from

HEAD, FRAME = 32, 20


def crc32c(data):
    """CRC-32C (RFC 3720, appendix B.4), bit by bit, for a few records."""
    found = 0xFFFFFFFF
    for byte in data:
        found ^= byte
        for _ in range(8):
            found = found >> 1 ^ (0x82F63B78 if found & 1 else 0)
    return found ^ 0xFFFFFFFF


def records(folder):
    """Yields what the records of a log keep, up to the first place where none is."""
    number = 0
    for path in sorted(glob.glob(f"{folder}/*.segment")):
        with open(path, "rb") as file:
            data = file.read()
        at = HEAD
        while at + FRAME <= len(data):
            length, found = unpack_from("<IQ", data, at)
            if length == 0 or found != number + 1:
                break
            number = found
            yield data[at + 16 : at + 16 + length]
            at += (length + FRAME + 7) // 8 * 8


def strings_of(batch, signed=False):
    """Returns the strings of a batch's bytes."""
    version = batch[4]
    at, end, found = 109 + version, len(batch) - (32 if signed else 0), []
    while at < end:
        (length,) = unpack_from("<I", batch, at)
        found.append(batch[at + 4 : at + 4 + length])
        at += 4 + length
    return found


def strings(folder, journal=False, signed=False):
    """Returns the strings of an order, from its log or from a journal of an order in etcd."""
    found = []
    for kept in records(folder):
        if journal:
            kept = kept[10 + int.from_bytes(kept[8:10], "little") :]
        found += strings_of(kept, signed)
    return found


assert crc32c(b"123456789") == 0xE3069283
