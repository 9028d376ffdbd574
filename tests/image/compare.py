"""compare.py DRIVER [long] [SEED]: holds the driver's answers to the model's, on images whole and damaged in every way, short and long."""
import random
import struct
import subprocess
import sys

import model
from seed import chosen


def others(rng, most):
    """Some whole records of other types than 1."""
    return b''.join(model.record(rng.choice([0, 2, 16, 255]), rng.randbytes(rng.choice([0, 1, 3, 4, 32, rng.randrange(200)])))
                    for _ in range(rng.randrange(most + 1)))


def whole(rng):
    return bytearray(model.image(rng, rng.choice([32, 33, 64, rng.randrange(32, 700)]), rng.choice([0, 1, rng.randrange(3000)]),
                                 others(rng, 3), others(rng, 3), rng.choice([0, 0, 1, rng.randrange(500)])))


def places(lent):
    header, body, records = (model.number(lent[a:b]) for a, b in ((8, 10), (12, 16), (4, 6)))
    return header + body, header + body + records


def resize(lent, at, size, by):
    lent[at:at + size] = ((model.number(lent[at:at + size]) + by) % 256**size).to_bytes(size, 'little')


def damaged(rng, lent):
    """One way of damage. Those that leave the digest right are what tells the causes apart."""
    area, end = places(lent)
    way = rng.randrange(12)
    if way == 0:                                    # any byte
        lent[rng.randrange(len(lent))] ^= rng.randrange(1, 256)
    elif way == 1:                                  # a byte of the magic word or of a size
        lent[rng.choice([0, 1, 2, 3, 4, 5, 8, 9, 12, 13, 14, 15])] ^= 1 << rng.randrange(8)
    elif way == 2:                                  # a size that is a little off
        resize(lent, *rng.choice([(4, 2), (8, 2), (12, 4)]), rng.choice([-2, -1, 1, 2]))
    elif way == 3:                                  # cut short
        del lent[rng.choice([end - 1, area, 32, 31, rng.randrange(len(lent))]):]
    elif way == 4:                                  # bytes left over behind the records
        left = rng.randrange(1, 6)
        lent[end:end] = rng.randbytes(left)
        resize(lent, 4, 2, left)
    elif way == 5:                                  # a second digest record
        second = model.record(1, rng.randbytes(rng.choice([0, 31, 32])))
        lent[end:end] = second
        resize(lent, 4, 2, len(second))
    elif way == 6:                                  # a byte of the area: types, pads, lengths, contents
        lent[rng.randrange(area, end)] ^= rng.randrange(1, 256)
    elif way == 7:                                  # a type changed to or from that of the digest
        lent[area] = rng.choice([0, 1, 2])
    elif way == 8:                                  # a record's length that is a little off
        resize(lent, area + 2, 2, rng.choice([-1, 1, 4, 32]))
    elif way == 9:                                  # an area of no bytes
        resize(lent, 4, 2, -(end - area))
    elif way == 10:                                 # a size as large as can be
        at, size = rng.choice([(4, 2), (8, 2), (12, 4)])
        lent[at:at + size] = b'\xff' * size
    else:                                           # lent more, or less, than the image
        lent[end:] = rng.randbytes(rng.randrange(3))
    return lent


def edges(rng):
    """Document 01's, areas of every small length, and the largest areas."""
    yield from (b'', bytes(31), bytes(32), b'\xff' * 64, model.MAGIC + bytes(28))
    least = model.image(rng)
    yield from (least[:n] for n in range(len(least) + 1))
    for at in range(len(least)):
        for bit in range(8):
            yield least[:at] + bytes([least[at] ^ 1 << bit]) + least[at + 1:]
    full = 65535 - 36
    for kind in (0, 1, 2):
        heads = model.record(kind, b'') * (full // 4)
        for before in (0, 1, full // 8, full // 4):
            for left in range(4):
                yield model.image(rng, 32, 8, heads[:4 * before], heads[4 * before:] + bytes(left))
    yield model.image(rng, 32, 8, model.record(2, bytes(full - 4)))
    yield model.image(rng, 65535, 65536, rest=9)
    yield model.image(rng, 32, 1 << 20)


def cases(rng, count):
    yield from edges(rng)
    for _ in range(count):
        lent = whole(rng)
        for _ in range(rng.choice([0, 1, 1, 1, 2, 3])):
            if len(lent) > 80 and 36 <= model.number(lent[4:6]) and places(lent)[1] <= len(lent):
                lent = damaged(rng, lent)
        yield bytes(lent)


def main():
    driver, *words = sys.argv[1:]
    long, seed = chosen('image', words)
    images = list(cases(random.Random(seed), 200_000 if long else 20_000))
    sent = b''.join(struct.pack('<Q', len(lent)) + lent for lent in images)
    run = subprocess.run([driver], input=sent, stdout=subprocess.PIPE, check=False)
    told = run.stdout.decode().splitlines()
    if run.returncode != 0 or len(told) != len(images):
        sys.exit('image: the driver ended with %d after %d of %d images (seed %d)' % (run.returncode, len(told), len(images), seed))
    counts, walked = [0] * 6, 0
    for i, lent in enumerate(images):
        wanted = model.answer(lent)
        counts[int(wanted[0])] += 1
        walked += max(0, len(wanted) - 2)
        if told[i] != ' '.join(wanted):
            sys.exit('image: image %d, of %d bytes: %.200s, not %.200s (seed %d)' % (i, len(lent), told[i], ' '.join(wanted), seed))
    if min(counts) < 200:
        sys.exit('image: too few images of some answer: %s (seed %d)' % (counts, seed))
    print('image: %d images agree with the model: %d accepted, %s of the causes 1 to 5; %d records walked over'
          % (len(images), counts[0], counts[1:], walked))


if __name__ == '__main__':
    main()
