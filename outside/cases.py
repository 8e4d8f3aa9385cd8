"""The headers of the table: a name, a kind and fields as AMQP values, and the line that is printed of one."""

ABSENT = None


class Symbol(str):
    pass


class Uint(int):
    pass


class Ulong(int):
    pass


class Described:
    def __init__(self, code, fields):
        self.code, self.fields = code, fields


def received(section, offset):
    return Described(0x23, [Uint(section), Ulong(offset)])


ACCEPTED = Described(0x24, [])
RELEASED = Described(0x26, [])
TAG = b"\x00\x00\x00\x14"


def rejected(name):
    error = ABSENT if name is None else Described(0x1d, [Symbol(name), ABSENT, ABSENT])
    return Described(0x25, [error])


def modified(failed, here):
    return Described(0x27, [failed, here, ABSENT])


def transfer(handle=0, id=ABSENT, tag=ABSENT, format=ABSENT, settled=ABSENT, more=False, state=ABSENT, resume=False, aborted=False, batchable=False):
    def optional(x):
        return ABSENT if x is ABSENT else Uint(x)

    return Described(0x14, [Uint(handle), optional(id), tag, optional(format), settled, more, ABSENT, state, resume, aborted, batchable])


def disposition(first=5, settled=False, state=ABSENT, batchable=False):
    return Described(0x15, [False, Uint(first), ABSENT, settled, state, batchable])


# The places of the booleans that are false where they are absent.
DEFAULTS = {0x14: (5, 8, 9, 10), 0x15: (3, 5)}

# Part 2, 2.8.15.
CONDITIONS = """internal-error not-found unauthorized-access decode-error resource-limit-exceeded not-allowed invalid-field
not-implemented resource-locked precondition-failed resource-deleted illegal-state frame-size-too-small""".split()


def truth(x, absent):
    return absent if x is ABSENT else "yes" if x else "no"


def state_text(s):
    if s is ABSENT:
        return "none"
    if s.code == 0x23:
        return "received(%d,%d)" % tuple(s.fields)
    if s.code == 0x25:
        e = s.fields[0]
        return "rejected(%d)" % (0 if e is ABSENT else CONDITIONS.index(e.fields[0][5:]) + 1)
    if s.code == 0x27:
        return "modified(%s,%s)" % tuple(truth(x, "absent") for x in s.fields[:2])
    return "accepted" if s.code == 0x24 else "released"


def text(h):
    """The line that the program prints of a header."""
    f = h.fields
    if h.code == 0x15:
        return "disposition first=%d settled=%s state=%s batchable=%s" % (f[1], truth(f[3], ""), state_text(f[4]), truth(f[5], ""))
    number = lambda x: "none" if x is ABSENT else str(x)
    tag = "none" if f[2] is ABSENT else f[2].hex() or "-"
    return "transfer handle=%d id=%s tag=%s format=%s settled=%s more=%s state=%s resume=%s aborted=%s batchable=%s" % (
        f[0], number(f[1]), tag, number(f[3]), truth(f[4], "none"), truth(f[5], ""), state_text(f[7]), truth(f[8], ""), truth(f[9], ""), truth(f[10], ""))


HEADERS = [
    ("a new delivery's first frame", transfer(id=7, tag=TAG, format=0, settled=False)),
    ("the same with more to come", transfer(id=7, tag=TAG, format=0, settled=False, more=True)),
    ("a continuation", transfer(handle=3)),
    ("a settled delivery with the greatest id", transfer(handle=255, id=2**32 - 1, tag=TAG, format=256, settled=True)),
    ("an empty tag", transfer(handle=256, id=0, tag=b"", format=0)),
    ("a tag of 32 bytes", transfer(id=1, tag=bytes(range(32)), format=0)),
    ("a resumed delivery, received in part", transfer(id=2, tag=TAG, state=received(1, 300), resume=True)),
    ("received at the start", transfer(id=2, tag=TAG, state=received(0, 0), resume=True)),
    ("received at the end", transfer(id=2, tag=TAG, state=received(2**32 - 1, 2**64 - 1), resume=True)),
    ("aborted", transfer(id=2, aborted=True)),
    ("batchable", transfer(batchable=True)),
    ("accepted within a transfer", transfer(id=7, tag=TAG, format=0, settled=False, state=ACCEPTED)),
    ("a disposition, accepted and settled", disposition(settled=True, state=ACCEPTED)),
    ("released", disposition(first=0, state=RELEASED)),
    ("no state", disposition(first=2**32 - 1, settled=True)),
    ("rejected with no condition", disposition(state=rejected(None))),
    ("modified, failed", disposition(state=modified(True, ABSENT))),
    ("modified, not failed, and undeliverable", disposition(state=modified(False, True), batchable=True)),
    ("modified, nothing said", disposition(state=modified(ABSENT, ABSENT))),
] + [("rejected: " + name, disposition(state=rejected("amqp:" + name))) for name in CONDITIONS]
