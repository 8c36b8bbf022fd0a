"""The order in which the actors of a crew had their turns, out of its transcript."""
from . import names, transcript

ACTOR = names.field("entry", "actor")


class Wrong(Exception):
    """A transcript isn't that of one order of turns."""


def actors_of(output) -> list[int]:
    """The actor of each entry."""
    at, found = 0, []
    while output[at:at + len(transcript.END)] != transcript.END:
        if at + transcript.ENTRY_HEAD > len(output):
            raise Wrong("the transcript is cut short")
        found.append(output[at + ACTOR.place])
        at += transcript.ENTRY_HEAD
        for _ in ("reply", "packets"):
            at += transcript.LENGTH + int.from_bytes(output[at:at + transcript.LENGTH], "big")
    if at + transcript.END_SIZE != len(output):
        raise Wrong("the transcript does not end with its end record")
    return found


def ordered(records, actors) -> list[bytes]:
    """The records in an order of turns, each actor's as they stand. All of them have to be played."""
    scripts = {}
    for record in records:
        scripts.setdefault(record[1], []).append(record)
    left = {actor: iter(script) for actor, script in scripts.items()}
    found = []
    for place, actor in enumerate(actors):
        record = next(left.get(actor, iter(())), None)
        if record is None:
            raise Wrong(f"entry {place} is of no record of actor {actor}")
        found.append(record)
    for actor, script in left.items():
        if next(script, None) is not None:
            raise Wrong(f"a record of actor {actor} wasn't played")
    return found
