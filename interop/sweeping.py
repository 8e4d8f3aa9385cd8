"""A break after each frame of a long message, for a queue and each encoder."""
import messages
from returning import Play
from scenario import played
from table import Row

LONG = messages.encoded()[-1]
START = len(messages.pool()) - len(LONG)
FRAME = 508
ATTACH = "attach handle=0 incomplete=no receiver=first sender=unsettled target=yes limit=0 unsettled=%s"
TAG, NEXT_TAG = "00000000", "00000001"
# More than any of these encoders needs.
ALL = 30


def sent(encoder, taken):
    """The message goes out, and the connection is lost after so many frames."""
    yield "link table=1 resume=1 resend=1 seats=1 sender=unsettled receiver=first limit=0 frame=%d count=0" % FRAME
    yield "queue places=%d widest=%d memory=%d" % (ALL, FRAME, ALL * FRAME)
    yield from ("encoder " + encoder, "pool file=messages.bin", "open handle=0 incomplete=no", ATTACH % "none")
    yield "flow count=0 credit=10 drain=no echo=no"
    yield "send start=%d length=%d format=0 settled=none state=none batchable=no" % (START, len(LONG))
    yield from ["take"] * taken
    yield "detach closed=no condition=0"
    yield from ["take"] * (ALL - taken)


def returned(had):
    """The link comes back to an archive that has so many bytes."""
    listed = "%s=received(0,%d)" % (TAG, had) if had else "none"
    yield from ("show reattaching=no denominator=1 room=1", "open handle=0 incomplete=no", ATTACH % listed)
    yield from ("flow count=1 credit=10 drain=no echo=no", "work", "resend")
    yield from ["take"] * ALL
    yield "disposition tag=%s settled=yes state=accepted" % (TAG if had else NEXT_TAG)
    yield from ("collect 0", "detach closed=no condition=0")


def play(lines, folder):
    path = folder / "sweep.scenario"
    path.write_text("".join(line + "\n" for line in lines))
    playing = Play("sweep", folder)
    for line in played(path, folder):
        playing.take(line)
    return playing


def row_of(encoder, folder):
    """One row for all breaks: whether the archive had the message after each."""
    rows, through, taken, is_whole = [], 0, 0, False
    while not is_whole:
        broken = play(sent(encoder, taken), folder)
        had = len(broken.archive.bytes.get(bytes.fromhex(TAG), b""))
        playing = play([*sent(encoder, taken), *returned(had)], folder)
        rows += playing.rows
        through += playing.rows[-1].same is True
        taken, is_whole = taken + 1, had == len(LONG)
    row = Row.sum_of("%s, a break after each frame" % encoder, rows)
    return row.told("whole after %d of %d breaks" % (through, taken), through == taken)


def all_rows(folder):
    (folder / "messages.bin").write_bytes(messages.pool())
    for encoder in ("compact", "wide"):
        yield row_of(encoder, folder)
