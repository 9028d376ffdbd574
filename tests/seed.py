"""The words that a random comparison is called with: [long] [SEED]. The seed is fixed if it is not given; in the long mode it is the system's."""
import random


def chosen(name, words):
    """Whether the mode is long, and the seed, which is printed with the command that makes the run again."""
    long = words[:1] == ['long']
    given = words[long:]
    seed = int(given[0]) if given else random.SystemRandom().randrange(2**32) if long else 2026
    print('%s: seed %d (again: tests/%s/run %s%d)' % (name, seed, name, 'long ' if long else '', seed), flush=True)
    return long, seed
