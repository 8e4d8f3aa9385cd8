"""Scenarios of links that break and come back, each connection with a real receiver at its other end."""
from pathlib import Path

from proton import Delivery

import messages
from archive import Archive
from receiving import Receiving, decoded
from records import DISPOSITION, FIRST
from scenario import pairs_of, played, state_of, yielded
from sending import Sending
from table import Row
from wire import DISPOSITION as ANSWER, FLOW, NAMES, Described, Uint, Ulong

SCENARIOS = Path(__file__).resolve().parent / "scenarios"
CODES = {name: code for code, name in NAMES.items()}
MODES = {"unsettled": 0, "settled": 1, "mixed": 2, "first": 0, "second": 1}
# How many messages of each scenario the archive must have in the end.
STORIES = {"resumed": 3, "wide": 3, "sections": 1, "spooled": 2, "aborted": 1, "restated": 1, "settling": 1, "second": 1, "settled": 2,
           "twice": 0}
# What a link that comes back twice sends of one message is not its rest (docs/INTEROP.md).
KNOWN = {"twice"}


def as_value(state):
    """A state as a value of AMQP, for the map of an attach."""
    name, values = state
    if name == "none":
        return None
    return Described(CODES[name], [Uint(values[0]), Ulong(values[1])] if values else [])


def described(taken):
    """What Proton says of a delivery."""
    words = ["aborted" if taken.aborted else "whole" if taken.whole else "in part"]
    if taken.state:
        words.append("%s%s" % (taken.state, "(%d,%d)" % taken.place if taken.place else ""))
    if taken.settled and not taken.aborted:
        words.append("settled")
    return ", ".join(words)


class Connection:
    """Our frames go out, and a receiver takes them."""

    def __init__(self, limit, sending):
        self.limit, self.sending, self.receiving = limit, sending, Receiving(limit, accepts=False)
        # Of each delivery, how long its frames are.
        self.frames = []
        for raw in sending.opening(limit):
            self.receiving.push(raw)

    def give(self, record):
        raw = self.sending.frame_of(record)
        if record.kind == FIRST:
            self.frames.append([])
        if record.kind != DISPOSITION:
            self.frames[-1].append(len(raw))
        self.receiving.push(raw)

    def grant(self, credit):
        """The count and the credit of the flow that Proton writes when it grants so much."""
        link = self.receiving.link
        link.flow(credit - link.credit)
        self.receiving.write()
        flow = self.receiving.said(FLOW)[-1]
        return flow.field(5), flow.field(6)

    def answer(self, tag, settled, state):
        """The disposition that Proton writes for a delivery."""
        name, place = state
        taken = [t for t in self.receiving.taken if t.tag == tag][-1]
        taken.answer(getattr(Delivery, name.upper(), None), settled, place)
        self.receiving.write()
        return self.receiving.said(ANSWER)[-1]


class Play:
    """A scenario on its way: `take` takes each line, and `rows` are what its deliveries came to."""

    def __init__(self, name, folder):
        self.name, self.folder = name, folder
        self.archive, self.connection, self.rows, self.connections = Archive(), None, [], 0
        self.messages, self.through, self.shown = {}, set(), {}
        self.pool = self.handle = self.limit = self.modes = self.count = None

    def take(self, line):
        """What a line is to the connection. Those that no method is named for are the link's matter alone."""
        act = getattr(self, "on_" + line.word, None)
        if act:
            act(line)

    def on_link(self, line):
        keys = line.keys
        self.limit, self.count = int(keys["frame"]) + 4, int(keys["count"])
        self.modes = MODES[keys["sender"]], MODES[keys["receiver"]]

    def on_pool(self, line):
        self.pool = (self.folder / line.keys["file"]).read_bytes()

    def on_open(self, line):
        self.handle = int(line.keys["handle"])

    def on_show(self, line):
        self.shown = pairs_of(";".join(line.answer.split()[1:]) or "none")

    def on_attach(self, line):
        """A new connection. What the archive lists must be what it has."""
        for tag, state in pairs_of(line.keys["unsettled"]).items():
            assert self.archive.has(tag, state), "the archive does not have so much of %s" % tag.hex()
        unsettled = {tag: as_value(state) for tag, state in self.shown.items()} or None
        self.connections += 1
        self.connection = Connection(self.limit, Sending(0, self.handle, unsettled, self.modes, self.count))

    def on_flow(self, line):
        said, wanted = self.connection.grant(int(line.keys["credit"])), (int(line.keys["count"]), int(line.keys["credit"]))
        assert said == wanted, "Proton counts %d and grants %d" % said

    def on_send(self, line):
        tag, start, length = self.count.to_bytes(4, "big"), int(line.keys["start"]), int(line.keys["length"])
        self.messages[tag] = self.pool[start:start + length]
        self.count += 1

    def on_resend(self, line):
        """A delivery that is sent again takes the next tag."""
        self.count += line.answer == "Worked"

    def on_disposition(self, line):
        """The link was told what Proton says."""
        settled, state = line.keys["settled"] == "yes", state_of(line.keys["state"])
        said = self.connection.answer(bytes.fromhex(line.keys["tag"]), settled, state)
        assert (bool(said.field(3)), said.field(4).code) == (settled, CODES[state[0]]), "Proton answers %s" % said

    def on_take(self, line):
        """Frames go out while there is a connection. What still waits after it is lost."""
        for record in yielded(line) if self.connection else []:
            self.connection.give(record)

    on_empty = on_take

    def on_detach(self, line):
        """The connection is gone, with what was on it."""
        connection, self.connection = self.connection, None
        receiving = connection.receiving
        assert not receiving.fault, "%s: Proton refuses: %s" % (self.name, receiving.fault)
        for frames, taken in zip(connection.frames, receiving.taken):
            self.archive.take(taken)
            case = "%s, connection %d, tag %s" % (self.name, self.connections, taken.tag.hex())
            row = Row(case, len(frames), len(taken.body), max(frames), self.limit)
            self.rows.append(row.told(described(taken), self.is_same(taken), self.name in KNOWN))

    def is_same(self, taken):
        """Whether the archive now has a message that was sent. None where there is nothing to compare."""
        if taken.aborted or not taken.whole or not taken.body:
            return None
        joined = self.archive.bytes[taken.tag]
        wanted = [self.messages[taken.tag]] if taken.tag in self.messages else self.messages.values()
        same = joined in wanted and decoded(joined) in messages.contents()
        if same:
            self.through.add(joined)
        return same

    def last_row(self):
        said = "%d of %d messages are through" % (len(self.through), len(self.messages))
        return Row.sum_of(self.name + ", all", self.rows).told(said, len(self.through) == STORIES[self.name])


def all_rows(folder):
    (folder / "messages.bin").write_bytes(messages.pool())
    for name in STORIES:
        play = Play(name, folder)
        for line in played(SCENARIOS / (name + ".scenario"), folder):
            play.take(line)
        yield from play.rows
        yield play.last_row()
