"""What an archive has of each delivery, over all connections: the place that a resumed delivery names is Proton's to tell and ours to find."""
from wire import end_of


def place(message, section, offset):
    """Where a place of the message stands, by the sections that have come (Part 3, 3.4.1)."""
    at = 0
    for _ in range(section):
        at = end_of(message, at)
    return at + offset


class Archive:
    def __init__(self):
        self.bytes = {}

    def take(self, taken):
        """Adds a delivery to what came before. A state with a place in it goes on from there, and any other begins anew."""
        if taken.aborted:
            self.bytes.pop(taken.tag, None)
            return
        had = self.bytes.get(taken.tag, b"")
        kept = place(had, *taken.place) if taken.place else 0
        assert kept <= len(had), "goes on past what has come"
        if taken.body or not taken.whole:
            self.bytes[taken.tag] = had[:kept] + bytes(taken.body)

    def has(self, tag, state):
        """Whether so much of a delivery has come as the state says that the archive lists."""
        name, values = state
        return name != "received" or place(self.bytes.get(tag, b""), *values) <= len(self.bytes.get(tag, b""))
