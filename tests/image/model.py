"""Document 01's section "Image", once more: what the check answers for the bytes lent (0: accepted), and images to ask it about."""
import hashlib

MAGIC = bytes([0x3c, 0xb8, 0xf3, 0x96])


def number(field):
    return int.from_bytes(field, 'little')


def records_of(area):
    """The records as (type, bytes), or None where they do not fill the area."""
    found = []
    while area:
        if len(area) < 4:
            return None
        size = number(area[2:4])
        if len(area) < 4 + size:
            return None
        found.append((area[0], area[4:4 + size]))
        area = area[4 + size:]
    return found


def walk_of(lent):
    """What a reader tells of the records of an image whose header can be used: TYPE@START+SIZE for each, and then end or stump."""
    area = lent[number(lent[8:10]) + number(lent[12:16]):][:number(lent[4:6])]
    told, at = [], 0
    while at < len(area):
        start = at + 4
        size = number(area[at + 2:start])
        if start + size > len(area):
            return told + ['stump']
        told.append('%d@%d+%d' % (area[at], start, size))
        at = start + size
    return told + ['end']


def answer(lent):
    """The cause, and the records where it is neither 1 nor 2."""
    found = cause(lent)
    return [str(found)] + ([] if found in (1, 2) else walk_of(lent))


def cause(lent):
    if len(lent) < 32:
        return 2
    if lent[:4] != MAGIC:
        return 1
    records, header, body = number(lent[4:6]), number(lent[8:10]), number(lent[12:16])
    if header < 32 or header + body + records > len(lent):
        return 2
    found = records_of(lent[header + body:header + body + records])
    if found is None:
        return 3
    digests = [content for kind, content in found if kind == 1]
    if len(digests) != 1 or len(digests[0]) != 32:
        return 4
    return 0 if digests[0] == hashlib.sha256(lent[:header + body]).digest() else 5


def record(kind, content, pad=0):
    return bytes([kind, pad]) + len(content).to_bytes(2, 'little') + content


def image(rng, header=32, body=0, before=b'', behind=b'', rest=0):
    """Bytes that the check accepts, if what stands before and behind the digest record are whole records of other types."""
    head = bytearray(rng.randbytes(header))
    head[:4] = MAGIC
    head[4:6] = (len(before) + 36 + len(behind)).to_bytes(2, 'little')
    head[8:10] = header.to_bytes(2, 'little')
    head[12:16] = body.to_bytes(4, 'little')
    covered = bytes(head) + rng.randbytes(body)
    return covered + before + record(1, hashlib.sha256(covered).digest(), rng.randrange(256)) + behind + rng.randbytes(rest)
