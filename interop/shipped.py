"""Files for the three shelves, and what `ship --spool` writes for them."""
import random
import subprocess
from pathlib import Path

from records import DISPOSITION, FIRST, records

SHIP = Path(__file__).resolve().parent.parent / "crates/ship"
SHELVES = ("response", "mesh", "raylog")


def content(shelf, size):
    """Bytes that no two shelves share: numbers, lines of a mesh, and a log."""
    rng = random.Random("%s %d" % (shelf, size))
    if shelf == "response":
        return rng.randbytes(size)
    line = "v %.6f %.6f %.6f\n" if shelf == "mesh" else "ray %.9f hit %.4f energy %.6f\n"
    text = bytearray()
    while len(text) < size:
        text += (line % (rng.random(), rng.random(), rng.random())).encode()
    return bytes(text[:size])


def made(size, folder):
    """A file of a size for each shelf: `(shelf, path)`."""
    for shelf in SHELVES:
        path = folder / ("%s_%d" % (shelf, size))
        path.write_bytes(content(shelf, size))
        yield shelf, path


def ship(parcels, frame, folder):
    """The records of one run, a list for each file."""
    spool = folder / "records.spool"
    words = ["%s=%s" % parcel for parcel in parcels]
    subprocess.run([SHIP / "out/ship", "--spool", spool, "--frame", str(frame), *words], check=True, stdout=subprocess.DEVNULL)
    deliveries = []
    for record in records(spool.read_bytes()):
        assert record.kind != DISPOSITION
        if record.kind == FIRST:
            deliveries.append([])
        deliveries[-1].append(record)
    return deliveries
