"""compare.py DRIVER [long] [SEED]: holds the driver's digests to those of hashlib, at every length from 0 to 300 and on random longer messages."""
import hashlib
import random
import struct
import subprocess
import sys

from seed import chosen

driver, *words = sys.argv[1:]
long, seed = chosen('digest', words)
rng = random.Random(seed)
times = 10 if long else 1
messages = [rng.randbytes(length) for length in range(301)]
# any length, and lengths about the end of a block
messages += [rng.randbytes(rng.randrange(301, 100_000)) for _ in range(200 * times)]
messages += [rng.randbytes(64 * rng.randrange(5, 500) + near) for near in (-9, -8, -1, 0, 1) for _ in range(20 * times)]
messages += [rng.randbytes(rng.randrange(1_000_000, 5_000_000)) for _ in range(3)]
sent = b''.join(struct.pack('<Q', len(m)) + m for m in messages)
got = subprocess.run([driver], input=sent, stdout=subprocess.PIPE, check=True).stdout
if not messages or len(got) != 32 * len(messages):
    sys.exit('digest: %d bytes written for %d messages (seed %d)' % (len(got), len(messages), seed))
for i, message in enumerate(messages):
    digest = got[32 * i:32 * i + 32]
    if digest != hashlib.sha256(message).digest():
        sys.exit('digest: message %d, of %d bytes: %s, not %s (seed %d)'
                 % (i, len(message), digest.hex(), hashlib.sha256(message).hexdigest(), seed))
print('digest: %d messages agree with hashlib' % len(messages))
