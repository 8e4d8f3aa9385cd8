"""A receiver of Qpid Proton, driven in memory: bytes go in and come out, and no socket is there."""
from proton import Collector, Connection, Delivery, Event, Message, ProtonException, Transport

from wire import frames


class Taken:
    """A delivery as Proton has it: what came of it, and what Proton says of it."""

    def __init__(self, delivery):
        self.delivery, self.tag = delivery, tag_of(delivery)
        self.body, self.frames = bytearray(), 0
        self.state = self.place = None
        self.whole = self.settled = self.aborted = False

    def note(self):
        """Takes over what has come, and what is known of it. It still stands after the connection has gone."""
        delivery = self.delivery
        self.frames += 1
        self.whole, self.settled, self.aborted = not delivery.partial, delivery.settled, delivery.aborted
        self.state = str(delivery.remote_state).lower() if delivery.remote_state else None
        if delivery.remote_state == Delivery.RECEIVED:
            # Of a transfer's state Proton fills in no section and no offset, and has the list's values alone.
            self.place = tuple(map(int, delivery.remote.data))
        # An aborted delivery has nothing to read, though it is told as pending.
        while delivery.pending and not self.aborted:
            self.body += delivery.link.recv(delivery.pending)

    def answer(self, state, settled, place=None):
        """Tells the sender a state, and settles if that is asked."""
        if place:
            self.delivery.local.section_number, self.delivery.local.section_offset = place
        if state:
            self.delivery.update(state)
        if settled:
            self.delivery.settle()


def tag_of(delivery):
    """A tag is any bytes, and a text to Proton's Python."""
    return delivery.tag.encode("utf-8", "surrogateescape")


def decoded(raw):
    """The body of a message as Proton decodes it."""
    message = Message()
    message.decode(bytes(raw))
    return bytes(message.body)


class Receiving:
    def __init__(self, max_frame, credit=0, accepts=True):
        """With `accepts` it takes every whole delivery as accepted, and settles it. Else somebody answers for it."""
        self.credit, self.accepts = credit, accepts
        self.written, self.taken, self.fault, self.link = bytearray(), [], None, None
        self.connection, self.collector = Connection(), Collector()
        self.connection.container = "archive"
        self.transport = Transport(Transport.SERVER)
        self.transport.max_frame_size = max_frame
        self.connection.collect(self.collector)
        self.transport.bind(self.connection)

    def push(self, raw):
        """Gives Proton these bytes, and lets it react."""
        while raw and not self.fault:
            room = self.transport.capacity()
            if room <= 0:
                self.fault = "takes no more bytes"
                return
            try:
                self.transport.push(raw[:room])
            except ProtonException as e:
                self.fault = str(e)
            raw = raw[room:]
            self.react()

    def react(self):
        while (event := self.collector.peek()) is not None:
            self.on(event)
            self.collector.pop()
        self.write()

    def on(self, event):
        if event.type == Event.DELIVERY:
            self.on_delivery(event.delivery)
        elif event.type == Event.TRANSPORT_ERROR:
            condition = event.transport.condition
            self.fault = "%s: %s" % (condition.name, condition.description)
        elif event.type == Event.CONNECTION_REMOTE_OPEN:
            event.connection.open()
        elif event.type == Event.SESSION_REMOTE_OPEN:
            event.session.open()
        elif event.type == Event.LINK_REMOTE_OPEN:
            self.on_attach(event.link)

    def on_attach(self, link):
        self.link = link
        link.source.copy(link.remote_source)
        link.target.copy(link.remote_target)
        link.open()
        link.flow(self.credit)

    def on_delivery(self, delivery):
        taken = next((t for t in self.taken if t.delivery == delivery), None)
        if taken is None:
            taken = Taken(delivery)
            self.taken.append(taken)
        was_whole = taken.whole
        taken.note()
        if taken.whole and not was_whole:
            self.link.advance()
            if self.accepts and not taken.aborted:
                taken.answer(Delivery.ACCEPTED, True)

    def write(self):
        while (size := self.transport.pending()) > 0:
            self.written += self.transport.peek(size)
            self.transport.pop(size)

    def said(self, code):
        """The performatives of one kind that Proton wrote."""
        return [p for p, _ in frames(bytes(self.written)) if p.code == code]
