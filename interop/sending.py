"""The session and the connection of a sending end: they give delivery ids, and make frames of what a link put into its sink."""
from records import FIRST
from wire import ATTACH, BEGIN, OPEN, PROTOCOL, Described, Ubyte, Uint, frame, performative, with_delivery_id

CHANNEL = 0
WINDOW = 2**31 - 1
SOURCE, TARGET = 0x28, 0x29


class Sending:
    def __init__(self, first_id=0, handle=0, unsettled=None, modes=(0, 0), count=0):
        self.next_id, self.handle, self.unsettled, self.modes, self.count = first_id, handle, unsettled, modes, count

    def opening(self, max_frame):
        """Open, begin and attach. The attach's map is what the link showed."""
        yield PROTOCOL
        yield performative(OPEN, ["dabberblue", None, Uint(max_frame)])
        yield performative(BEGIN, [None, Uint(0), Uint(WINDOW), Uint(WINDOW)])
        source, target = Described(SOURCE, ["shelf"]), Described(TARGET, ["shelf"])
        sender, receiver = map(Ubyte, self.modes)
        yield performative(ATTACH, ["shelf", Uint(self.handle), False, sender, receiver, source, target, self.unsettled, False, Uint(self.count)])

    def frame_of(self, record):
        """A record's frame: a delivery's first transfer gets the next delivery id."""
        header = record.header
        if record.kind == FIRST:
            header = with_delivery_id(header, self.next_id)
            self.next_id = (self.next_id + 1) % 2**32
        return frame(CHANNEL, header + record.payload)
