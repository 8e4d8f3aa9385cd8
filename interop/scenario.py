"""A scenario's lines, each with what the program `scenario` answered to it."""
import subprocess
from collections import namedtuple
from pathlib import Path

from records import Record, records

PROGRAM = Path(__file__).resolve().parent.parent / "crates/scenario/out/scenario"

# A line's first word, its words `key=value`, its other words, and the answer.
Line = namedtuple("Line", "word keys rest answer")


def is_built():
    return PROGRAM.exists()


def parsed(text, answer):
    words = text.split()
    said, _, answer = answer.partition(": ")
    assert said == words[0], "%s is answered by %s" % (words[0], said)
    keys = dict(w.split("=", 1) for w in words[1:] if "=" in w)
    return Line(words[0], keys, [w for w in words[1:] if "=" not in w], answer)


def played(path, folder):
    """The lines of a scenario, whose files lie in a folder."""
    run = subprocess.run([PROGRAM, path], cwd=folder, check=True, capture_output=True, text=True)
    texts = [t for t in path.read_text().splitlines() if t.strip() and not t.lstrip().startswith("#")]
    answers = run.stdout.splitlines()
    assert len(texts) == len(answers), "%s: %d lines, %d answers" % (path.name, len(texts), len(answers))
    return [parsed(*pair) for pair in zip(texts, answers)]


def raw(digits):
    return b"" if digits == "-" else bytes.fromhex(digits)


def yielded(line):
    """The records of the frames that a `take` or an `empty` answered."""
    if line.word == "empty":
        return list(records(raw(line.answer)))
    if line.answer == "none":
        return []
    parts = dict(w.split("=", 1) for w in line.answer.split())
    return [Record(int(parts["kind"]), int(parts["handle"]), raw(parts["header"]), raw(parts["payload"]))]


def state_of(text):
    """A state's name and its values."""
    name, _, values = text.rstrip(")").partition("(")
    return name, [int(v) if v.isdigit() else v for v in values.split(",")] if values else []


def pairs_of(text):
    """The pairs `TAG=STATE` of a list, by tag."""
    if text == "none":
        return {}
    return {raw(tag): state_of(state) for tag, state in (pair.split("=", 1) for pair in text.split(";"))}
