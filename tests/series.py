"""Series of SETs on the built program: nodes in rising, falling and no order, long keys, large blocks, full files.

After each hundred INTEG finds no fault, and ORDER, QUERY and GET list exactly the nodes that were set, in their order,
with their values. In the end the tree isn't deeper than it should be.
"""

import random
from dataclasses import dataclass
from decimal import Decimal
from typing import Callable

from files import HEADER
from scripts import Map, call, reference_text, string_text

# how many lines a run has
RUN = 100
# a SET is refused as FULL where fewer blocks would be free if the file grew to its limit
ROOM = 32


@dataclass
class Series:
    """The node of a number and of one in no order, how many SETs, the bound of the latter, and how the tree ends."""

    node: Callable
    count: int
    bound: int
    block: int = 512
    key: int = 64
    value: int = 100
    total: int = 64
    limit: int = 100_000
    # the most levels of the root
    most: int = 3
    # how the refused SETs are answered, of which there are some
    refused: bytes | None = None


def letters(count, number):
    rng = random.Random(number)
    return bytes(rng.randrange(97, 123) for _ in range(count))


def pair(number, mixed):
    sign = "-" if mixed % 3 == 0 else ""
    return (b"A", Decimal(mixed % 40), Decimal(f"{sign}{mixed // 40 + 1}.5"))


def with_letters(count):
    return lambda number, mixed: (b"A", letters(count, mixed))


SERIES = {
    "mixed": Series(lambda number, mixed: (b"A", Decimal(mixed)), 2000, 2000),
    "rising": Series(lambda number, mixed: (b"A", Decimal(number)), 2000, 1, value=10),
    "falling": Series(lambda number, mixed: (b"A", Decimal(-number)), 2000, 1, value=10),
    "pairs": Series(pair, 2000, 2000),
    "alike": Series(lambda number, mixed: (b"A", b"k" * 50 + b"%d" % mixed), 2000, 2000, most=6),
    "long": Series(with_letters(59), 2000, 2000, most=6),
    "longest": Series(with_letters(152), 2000, 9999, key=157, value=335, most=7, refused=b"TOODEEP"),
    "large": Series(with_letters(200), 200, 100, block=65024, key=255, value=64749),
    "full": Series(with_letters(59), 2000, 4000, total=500, limit=520, most=6, refused=b"FULL"),
    "names": Series(lambda number, mixed: (letters(31, mixed),), 400, 4000, most=6),
}


def created(series):
    numbers = {
        "BLOCK": series.block,
        "KEY": series.key,
        "VALUE": series.value,
        "ALLOC": series.total,
        "EXT": 64,
        "LIMIT": series.limit,
    }
    return ["CREATE", *(f"-{name}={number}" for name, number in numbers.items())]


def at(data, place):
    return int.from_bytes(data[place : place + 4], "little")


def room(db):
    """How many blocks would be free if the file grew to its limit."""
    total, free, limit = at(db, 12), at(db, 16), at(db, 24)
    return free + limit - total - (-(-limit // 512) - -(-total // 512))


def level(db, series):
    """The level of the tree's root: that of the one global, or of the names where each node has its own."""
    block = lambda number: db[HEADER + number * series.block :][: series.block]
    names = len(series.node(0, 0)) == 1
    return block(1 if names else at(block(2), 23))[3]


def differs(found, due):
    """The first answer that isn't as it should be, or nothing."""
    for number, (came, right) in enumerate(zip(found, due)):
        if came != right:
            return f"line {number} is answered {came[:80]!r} and not {right[:80]!r}"
    return None if len(found) == len(due) else f"{len(found)} lines and not {len(due)}"


def asked(program, folder, lines):
    """What a script answers, but for its last epoch."""
    _, said = call(program, folder, ["RUN"], b"".join(line + b"\n" for line in lines))
    return said.split(b"\n")[:-2]


def listed(nodes):
    """Questions that list the nodes and their values, the first name's among them, and their answers."""
    names = sorted({node[0] for node in nodes.nodes})
    lines = [b"ORDER ^%s" % name for name in names] + [b"QUERY ^" + name for name in names]
    due = [nodes.next_on_level((name,), False) for name in names] + [nodes.query((name,)) for name in names]
    for node in nodes.nodes:
        lines += [b"GET " + reference_text(node), b"QUERY " + reference_text(node)]
        due += [b"VALUE " + string_text(nodes.values[node]), nodes.query(node)]
    return lines, due


def wrong_with_nodes(program, folder, nodes):
    """What is wrong with the file, or with the nodes that questions list, or nothing."""
    if call(program, folder, ["INTEG"]) != (0, b"FAULTS 0\n"):
        return "left faults"
    lines, due = listed(nodes)
    return differs(asked(program, folder, lines), due)


def set_some(program, folder, series, nodes, changes):
    """Sets nodes, and answers which SETs were refused, and what is wrong with an answer, or nothing."""
    lines = [b"SET " + reference_text(node) + b"=" + string_text(value) for node, value in changes]
    found = asked(program, folder, lines)
    if len(found) != len(lines):
        return [], f"{len(found)} answers to {len(lines)} lines"
    for (node, value), came in zip(changes, found):
        if came == b"OK":
            nodes.set(node, value)
        elif not (series.refused and came.startswith(series.refused)):
            return [], f"{reference_text(node)!r} is answered {came!r}"
    return [came != b"OK" for came in found], None


def is_due(series, db, refused, was_full):
    """Whether SETs were refused as they should be: FULL once no room is left, TOODEEP where the root has level 7."""
    if series.refused == b"FULL":
        is_full = room(db) < ROOM
        first = refused.index(True) if True in refused else len(refused)
        return all(refused[first:]) and (first == 0 or not was_full) and any(refused) <= is_full
    return not any(refused) or level(db, series) == 7


def wrong_with_series(program, folder, series):
    """What is wrong with a series, or nothing. A block was used before it begins, and is free again."""
    rng, nodes, some = random.Random(series.count), Map(), False
    call(program, folder, created(series))
    asked(program, folder, [b"SET ^B=1", b"KILL ^B"])
    was_full = False
    for front in range(0, series.count, RUN):
        changes = []
        for number in range(front, front + RUN):
            value = bytes([number % 251]) * rng.randrange(series.value + 1)
            changes.append((series.node(number, rng.randrange(series.bound)), value))
        refused, wrong = set_some(program, folder, series, nodes, changes)
        db = (folder / "db").read_bytes()
        if not wrong and not is_due(series, db, refused, was_full):
            wrong = "is refused without a cause, or not where it should be"
        wrong = wrong or wrong_with_nodes(program, folder, nodes)
        if wrong:
            return f"from {front} on: {wrong}"
        was_full, some = room(db) < ROOM, some or any(refused)
    if some != (series.refused is not None):
        return f"some were refused: {some}"
    if level(db, series) > series.most:
        return f"the root has level {level(db, series)}"
    return None
