"""What `ship` sends, given to a real receiver: every file must come out of it with its own bytes."""
from receiving import Receiving, decoded
from sending import Sending
from shipped import SHIP, content, made, ship
from table import Row
from wire import DISPOSITION, NAMES

try:
    from uamqp import Message
except ImportError:
    Message = None

SIZES = (100, 10_000, 1_000_000)
FRAMES = (512, 4096, 65_535)
# A binary's length takes one byte up to 255.
EDGES = (0, 1, 255, 256)


def by_uamqp(raw):
    """The message's body as uamqp decodes it."""
    return b"".join(Message.decode_from_bytes(bytes(raw)).get_data())


def is_same(taken, wanted):
    return decoded(taken.body) == wanted and (Message is None or by_uamqp(taken.body) == wanted)


def answered(receiving, id):
    """The receiver's answer to a delivery, from the bytes that it wrote."""
    for p in receiving.said(DISPOSITION):
        last = p.field(1) if p.field(2) is None else p.field(2)
        if p.field(1) <= id <= last:
            return "%s%s" % (NAMES[p.field(4).code], ", settled" if p.field(3) else "")
    return "no answer"


def give(deliveries, limit, first_id):
    """A receiver that has taken these, and how long each delivery's longest frame is."""
    sending, receiving, longest = Sending(first_id), Receiving(limit, len(deliveries)), []
    for raw in sending.opening(limit):
        receiving.push(raw)
    for records in deliveries:
        frames = [sending.frame_of(record) for record in records]
        longest.append(max(map(len, frames)))
        for raw in frames:
            receiving.push(raw)
    return receiving, longest


def rows_of(name, parcels, frame, folder, first_id=0):
    """One run of `ship` over a link: a row for each file."""
    deliveries = ship(parcels, frame, folder)
    receiving, longest = give(deliveries, frame + 4, first_id)
    for n, (shelf, path) in enumerate(parcels):
        wanted = path.read_bytes()
        row = Row("%s, %s, frame %d" % (shelf, name, frame), len(deliveries[n]), len(wanted), longest[n], frame + 4)
        if receiving.fault or n >= len(receiving.taken):
            yield row.told(receiving.fault or "nothing came", False)
        else:
            taken = receiving.taken[n]
            made_of = "%s, %s" % ("whole" if taken.whole else "in part", answered(receiving, (first_id + n) % 2**32))
            yield row.told(made_of, is_same(taken, wanted))


def controls(folder):
    """That a message is told apart that differs in one byte, and that no frame may be longer than ours can become."""
    (records,) = ship([next(made(10_000, folder))], 512, folder)
    last = records[-1]
    changed = records[:-1] + [last._replace(payload=last.payload[:-1] + bytes([last.payload[-1] ^ 1]))]
    receiving, longest = give([changed], 516, 0)
    row = Row("control: one byte changed", len(records), 10_000, longest[0], 516)
    yield row.told("told apart", False if is_same(receiving.taken[0], content("response", 10_000)) else None)
    receiving, longest = give([records], 515, 2**32 - 1)
    row = Row("control: a peer that takes one byte less", len(records), 10_000, longest[0], 515)
    yield row.told("refused: %s" % receiving.fault, None if receiving.fault else False)


def all_rows(folder):
    for size in SIZES:
        for frame in FRAMES:
            yield from rows_of("%d bytes" % size, list(made(size, folder)), frame, folder)
    for size in EDGES:
        yield from rows_of("%d bytes" % size, list(made(size, folder)), 512, folder)
    data = SHIP / "data"
    samples = [("response", data / "hall.f32"), ("mesh", data / "room.obj"), ("raylog", data / "rays.log"), ("raylog", data / "marks.log")]
    yield from rows_of("sample", samples, 512, folder)
    yield from rows_of("the widest ids", list(made(10_000, folder)), 512, folder, 2**32 - 2)
    yield from controls(folder)
