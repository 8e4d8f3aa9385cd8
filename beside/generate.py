#!/usr/bin/env python3
"""Cases for the two programs that `compare` holds against each other. beside/README.md has their language.

usage: generate.py KIND [SEED [COUNT]]

Some kinds are whole lists and take no notice of the seed; the others are that many random cases.
"""
import itertools
import random
import sys

# The bytes that a section's beginning is made of, and two that it is not.
LETTERS = bytes.fromhex('00537075778041')
MOST32, MOST64 = 2**32 - 1, 2**64 - 1

LINK_STATES = ('Unattached AttachSent IncompleteAttachSent AttachReceived IncompleteAttachReceived '
               'Attached IncompleteAttachExchanged Detached Closed').split()
MODES = ('settled', 'unsettled', 'mixed')
TRUTHS = ('yes', 'no')
MARKS = ('absent', 'no', 'yes')
OUTCOMES = (['accepted', 'released'] + [f'rejected({n})' for n in range(14)]
            + [f'modified({a},{b})' for a in MARKS for b in MARKS])


def text(message):
    return message.hex() or '-'


def received(section, offset):
    return f'received({section},{offset})'


# Messages.

def sections(rng):
    """A sound message: a few sections, their codes in one byte or eight, their bodies as they come."""
    parts = []
    for _ in range(rng.randrange(1, 5)):
        code = rng.randrange(0x70, 0x79)
        long_code = rng.random() < 0.2
        parts.append(b'\x00\x80' + code.to_bytes(8, 'big') if long_code else bytes((0, 0x53, code)))
        body = bytes(rng.choice(LETTERS) for _ in range(rng.randrange(8)))
        parts.append(bytes((0xa0, len(body))) + body)
    return b''.join(parts)


def damaged(rng, message):
    """With a byte changed, left out, put in, or with its end cut off."""
    i = rng.randrange(len(message) + 1)
    letter = bytes((rng.choice(LETTERS),))
    return rng.choice((message[:i] + letter + message[i + 1:], message[:i] + message[i + 1:],
                       message[:i] + letter + message[i:], message[:i]))


def messages(rng):
    while True:
        message = sections(rng)
        yield damaged(rng, message) if rng.random() < 0.5 else message


def place(rng, message):
    """A place in or about a message, or at the end of all numbers."""
    section = rng.choice((0, 0, 0, 1, 1, 2, 3, 4, MOST32 - 1, MOST32))
    length = len(message)
    offset = rng.choice((rng.randrange(length + 2), max(length - 3, 0), max(length - 2, 0), length,
                         MOST32, MOST32 + 1, MOST64 - 1, MOST64))
    return section, offset


# Kinds of cases that are whole lists.

def codes():
    """Every pair of bytes: with their thirds, every three bytes."""
    for first, second in itertools.product(range(256), repeat=2):
        yield f'codes {first:02x} {second:02x}'


def places(longest=6):
    """Every message of these letters, up to a length."""
    for length in range(longest + 1):
        for letters in itertools.product(LETTERS, repeat=length):
            yield f'places {text(bytes(letters))} 3 6'


def decisions():
    """Every state of ours with every one of the peer's, in messages with and without the places."""
    parts = [received(s, o) for s in (0, 1, MOST32) for o in (0, 1, 4, MOST64)]
    states = ['none'] + parts + OUTCOMES
    for message in ('-', '005375a00141', '005370c003014100005375a0034142430053784500'):
        for local, peer in itertools.product(states, ['absent'] + states):
            yield f'resume {local} {peer} {message}'


def moves():
    for state, truth in itertools.product(LINK_STATES, TRUTHS):
        for call in ('open', 'attach', 'detach'):
            yield f'{call} {state} {truth}'


def modes():
    for own in MODES:
        yield from (f'settles {own} {asked}' for asked in ('yes', 'no', 'none'))
        yield from (f'conflict {own} {peer}' for peer in MODES)


def bounds():
    """Credit, counts and limits at the ends of their numbers."""
    ends = (0, 1, 2, MOST32 - 1, MOST32)
    told = ('none',) + ends
    for initial, count, credit in itertools.product(ends, repeat=3):
        for told_count, told_credit in itertools.product(told, repeat=2):
            for drain, echo in itertools.product(TRUTHS, repeat=2):
                yield f'flow {initial} {count} {credit} {told_count} {told_credit} {drain} {echo}'
    for count, credit in itertools.product(ends, ends[1:]):
        yield f'consume {count} {credit}'
    limits = ends + (MOST64 - 1, MOST64)
    for own, peer in itertools.product(limits, ('none',) + limits):
        yield f'limit {own} {peer}'


def shows():
    """Tables of up to nine entries, at denominators about their length."""
    for count in range(10):
        pairs = ''.join(f' {i:02x}={OUTCOMES[i] if i % 2 else "none"}' for i in range(count))
        for denominator in sorted({0, 1, 2, 3, max(count - 1, 0), count, count + 1, MOST64}):
            yield from (f'show {truth} {denominator}{pairs}' for truth in TRUTHS)


# Kinds of random cases.

def search(rng):
    for message in messages(rng):
        section, offset = place(rng, message)
        yield f'search {text(message)} {section} {offset}'


def messy_places(rng):
    for message in messages(rng):
        yield f'places {text(message)} 5 12'


def resume(rng):
    """Parts received on both sides, near each other."""
    for message in messages(rng):
        section, offset = place(rng, message)
        near = received(max(section - rng.randrange(2), 0), max(offset - rng.randrange(3), 0))
        local = rng.choice(('none', near, near, received(*place(rng, message))))
        yield f'resume {local} {received(section, offset)} {text(message)}'


def near(rng, most):
    """A number near an end, or any."""
    return rng.choice((rng.randrange(20), most - rng.randrange(20), rng.randrange(most + 1)))


def flow(rng):
    while True:
        count = near(rng, MOST32)
        # What the peer tells is often about where we are.
        told_count = rng.choice(('none', near(rng, MOST32), max(count - rng.randrange(30), 0)))
        told_credit = rng.choice(('none', near(rng, MOST32)))
        initial, credit = near(rng, MOST32), near(rng, MOST32)
        drain, echo = rng.choice(TRUTHS), rng.choice(TRUTHS)
        yield f'flow {initial} {count} {credit} {told_count} {told_credit} {drain} {echo}'


def limit(rng):
    while True:
        yield f'limit {near(rng, MOST64)} {rng.choice(("none", near(rng, MOST64)))}'


def table(rng):
    """Puts, takes and looks of a few tags, some of no bytes and some of 32."""
    tags = ['-', 'aa', 'bb', 'aabb', '00000001', '00000100', 'cc' * 32, 'cc' * 31]
    while True:
        steps = []
        for _ in range(rng.randrange(1, 16)):
            tag = rng.choice(tags)
            put = f'+{tag}={rng.choice(OUTCOMES + ["none", received(1, 2)])}'
            steps.append(rng.choice((put, put, f'-{tag}', f'?{tag}')))
        yield 'map ' + ' '.join(steps)


LISTS = {'codes': codes, 'places': places, 'decisions': decisions, 'moves': moves, 'modes': modes,
         'bounds': bounds, 'shows': shows}
RANDOM = {'search': search, 'messy-places': messy_places, 'resume': resume, 'flow': flow,
          'limit': limit, 'table': table}


def cases(kind, seed=1, count=1000):
    if kind in LISTS:
        return LISTS[kind]()
    return itertools.islice(RANDOM[kind](random.Random(f'{kind} {seed}')), count)


if __name__ == '__main__':
    for case in cases(sys.argv[1], *map(int, sys.argv[2:4])):
        print(case)
