"""Random scripts of RUN, and what each line has to be answered by an ordered map of nodes.

The map is ordered as the order of references is defined, by names, numbers and strings; nothing here knows keys but for
their lengths. A script runs on small blocks, so that some hundred lines make trees of several levels and empty them.
"""

import subprocess
from bisect import bisect_left, bisect_right, insort
from dataclasses import dataclass, field
from decimal import Decimal

KEY_MAX = 60
VALUE_MAX = 90
CREATE = ["CREATE", "-BLOCK=512", f"-KEY={KEY_MAX}", f"-VALUE={VALUE_MAX}", "-ALLOC=64", "-EXT=200"]


def order(node):
    """What two nodes are compared by: name, then each subscript, numbers before strings."""
    name, *subscripts = node
    return (name, *((0, s) if isinstance(s, Decimal) else (1, s) for s in subscripts))


def number_text(n):
    text = format(n.normalize(), "f")
    return text.replace("0.", ".", 1) if text.lstrip("-").startswith("0.") else text


def string_text(text):
    """Bytes as they are written: printable ones in quotes, the others by their codes."""
    runs = []
    for byte in text:
        plain = 32 <= byte <= 126
        if not runs or runs[-1][0] != plain:
            runs.append((plain, bytearray()))
        runs[-1][1].append(byte)
    if not runs:
        return b'""'
    return b"_".join(
        b'"' + bytes(run).replace(b'"', b'""') + b'"' if plain else b"$C(" + b",".join(b"%d" % b for b in run) + b")"
        for plain, run in runs
    )


def subscript_text(s):
    return number_text(s).encode() if isinstance(s, Decimal) else string_text(s)


def reference_text(node):
    name, *subscripts = node
    return b"^" + name + (b"(" + b",".join(map(subscript_text, subscripts)) + b")" if subscripts else b"")


def subscript_len(s):
    """How many bytes a subscript has in a key, with the byte that ends it."""
    if isinstance(s, bytes):
        return 2 + len(s) + sum(b < 2 for b in s)
    if s == 0:
        return 2
    sign, digits, _ = s.normalize().as_tuple()
    return 2 + (len(digits) + 1) // 2 + sign


def key_len(node):
    name, *subscripts = node
    return len(name) + 2 + sum(map(subscript_len, subscripts))


@dataclass
class Map:
    """The nodes that have a value, in order."""

    nodes: list = field(default_factory=list)
    values: dict = field(default_factory=dict)

    def set(self, node, value):
        if node not in self.values:
            insort(self.nodes, node, key=order)
        self.values[node] = value

    def from_node(self, node):
        """Where the nodes begin that aren't below it."""
        return bisect_left(self.nodes, order(node), key=order)

    def behind_descendants(self, node):
        """Where the nodes end that are the node or under it."""
        at = self.from_node(node)
        while at < len(self.nodes) and self.nodes[at][: len(node)] == node:
            at += 1
        return at

    def kill(self, node):
        first, last = self.from_node(node), self.behind_descendants(node)
        for gone in self.nodes[first:last]:
            del self.values[gone]
        del self.nodes[first:last]

    def next_on_level(self, node, first):
        """The name or the subscript behind the node's last one; the first one under it."""
        at = bisect_right(self.nodes, order(node), key=order) if first else self.behind_descendants(node)
        level = len(node) if first else len(node) - 1
        if at == len(self.nodes) or self.nodes[at][:level] != node[:level]:
            return b"END"
        found = self.nodes[at][level]
        return b"NEXT " + (subscript_text(found) if level else b"^" + found)

    def data(self, node):
        under = self.nodes[self.from_node(node) : self.behind_descendants(node)]
        return (node in self.values) + (10 if any(len(n) > len(node) for n in under) else 0)

    def query(self, node):
        at = bisect_right(self.nodes, order(node), key=order)
        if at == len(self.nodes) or self.nodes[at][0] != node[0]:
            return b"END"
        return b"NODE " + reference_text(self.nodes[at])


NUMBERS = ["0", "1", "2", "10", "-1", "-10", "-10.1", "10.1", ".5", "-.5", "100000000000000001", "1234567"]
STRINGS = [b"a", b"ab", b"b", b"01", b"\0", b"\0\1", b"\1", b"\xff\xff", b'q"q', b"1E2", b"-0", b"x" * 20]
NAMES = [b"A", b"AB", b"B", b"%", b"%a", b"a1", b"Z"]


def random_subscript(rng):
    kind = rng.random()
    if kind < 0.5:
        return Decimal(rng.randrange(400))
    return Decimal(rng.choice(NUMBERS)) if kind < 0.7 else rng.choice(STRINGS)


def random_node(rng, wide):
    """A node of one of two wide globals, of which one has long keys that share no front, or of any."""
    if wide:
        number = rng.randrange(3000)
        if rng.random() < 0.5:
            return (b"V", b"%030x" % (number * 0x9E3779B97F4A7C15F39CC0605CEDC835 % 2**120))
        return (b"W", Decimal(number), *([random_subscript(rng)] if rng.random() < 0.2 else []))
    return (rng.choice(NAMES), *(random_subscript(rng) for _ in range(rng.choice([0, 1, 1, 2, 2, 3, 5]))))


def with_null(node):
    """The reference with the empty string behind it, by which ORDER asks for the first subscript."""
    text = reference_text(node)
    return text[:-1] + b',"")' if len(node) > 1 else text + b'("")'


def change(rng, map_, node, kills):
    """A line that changes the map, and its answer."""
    if rng.random() < kills:
        map_.kill(node)
        return b"KILL " + reference_text(node), b"OK"
    value = b"v" * rng.choice([0, 1, 5, 30, 60, VALUE_MAX, VALUE_MAX + 1])
    line = b"SET " + reference_text(node) + b"=" + string_text(value)
    if len(value) > VALUE_MAX:
        return line, b"VALUETOOLONG %d" % len(value)
    map_.set(node, value)
    return line, b"OK"


def question(rng, map_, node):
    """A line that asks, and its answer."""
    text = reference_text(node)
    match rng.randrange(5):
        case 0:
            value = map_.values.get(node)
            return b"GET " + text, b"UNDEF" if value is None else b"VALUE " + string_text(value)
        case 1:
            return b"ORDER " + text, map_.next_on_level(node, False)
        case 2:
            return b"ORDER " + with_null(node), map_.next_on_level(node, True)
        case 3:
            return b"DATA " + text, b"DATA %d" % map_.data(node)
        case _:
            return b"QUERY " + text, map_.query(node)


def random_line(rng, map_, phase):
    """A line and its answer. In a phase most lines set nodes of one wide global, or most kill."""
    node = random_node(rng, phase != "mixed" and rng.random() < 0.9)
    if map_.nodes and rng.random() < 0.4:
        node = rng.choice(map_.nodes)[: 1 if rng.random() < 0.02 else rng.choice([2, 3, 9])]
    if key_len(node) > KEY_MAX:
        verb = rng.choice([b"KILL ", b"GET ", b"ORDER ", b"DATA ", b"QUERY "])
        return verb + reference_text(node), b"KEYTOOLONG %d" % key_len(node)
    if rng.random() < (0.8 if phase != "mixed" else 0.5):
        return change(rng, map_, node, {"grow": 0.03, "shrink": 0.9, "mixed": 0.3}[phase])
    return question(rng, map_, node)


def random_script(rng, map_, count, phase):
    """Lines and their answers, and the epoch at the end. The map is what they leave of it."""
    lines, answers, changes = [], [], 0
    for _ in range(count):
        if rng.random() < 0.005:
            line, answer = b"EPOCH", b"EPOCH %d" % changes
        else:
            line, answer = random_line(rng, map_, phase)
        lines.append(line)
        answers.append(answer)
        changes += answer == b"OK"
    return lines, [*answers, b"EPOCH %d" % changes]


def call(program, folder, words, text=b""):
    ran = subprocess.run([program, folder / "db", *words], cwd=folder, input=text, stdout=subprocess.PIPE, timeout=600)
    return ran.returncode, ran.stdout


def wrong_with_scripts(program, folder, rng, runs, count):
    """Runs scripts one after another on one database; what is wrong with an answer or with the file, or nothing."""
    map_ = Map()
    call(program, folder, CREATE)
    for number in range(runs):
        lines, answers = random_script(rng, map_, count, ["grow", "mixed", "shrink"][number % 3])
        status, said = call(program, folder, ["RUN"], b"".join(line + b"\n" for line in lines))
        found = said.split(b"\n")[:-1]
        for line, answer, right in zip([*lines, b""], found, answers):
            if answer != right:
                return f"run {number}: {line!r} is answered {answer!r} and not {right!r}"
        if status != 0 or len(found) != len(answers):
            return f"run {number} ended with {status} after {len(found)} of {len(answers)} answers"
        if call(program, folder, ["INTEG"]) != (0, b"FAULTS 0\n"):
            return f"run {number} left faults"
    return None
