"""Database files made by hand, for the scripts of this folder. docs/FORMAT.md has the layout of their bytes."""

HEADER = 8192
CLOSED = b"GDSBIMG1\0"


def header(
    block=1024,
    total=100,
    free=95,
    extension=100,
    limit=1048576,
    key=64,
    value=400,
    number=2,
    label=b"GDSPROF1",
    master=b"\1",
):
    """A file header; as it stands, one without a fault."""
    fields = b"".join(n.to_bytes(4, "little") for n in (block, total, free, extension, limit, key, value))
    front = label + fields + bytes(4) + number.to_bytes(8, "little")
    return (front.ljust(4096, b"\0") + master).ljust(HEADER, b"\0")


def block(level, records, used=None, size=1024, number=1):
    """A block with these records, each a count and a body, and this transaction number."""
    sizes = [(4 + len(rest)).to_bytes(2, "little") for count, rest in records]
    body = b"".join(of + count.to_bytes(2, "little") + rest for of, (count, rest) in zip(sizes, records))
    used = 16 + len(body) if used is None else used
    head = bytes([1, 0, 0, level]) + used.to_bytes(4, "little") + number.to_bytes(8, "little")
    return (head + body).ljust(size, b"\0")


def bitmap(group, used, total, size=1024, number=1):
    """The map of a group: busy where a block is used, and new elsewhere."""
    pairs = bytearray(128)
    for k in range(1, min(512, total - 512 * group)):
        if 512 * group + k not in used:
            pairs[k // 4] |= 1 << 2 * (k % 4)
    head = bytes([1, 0, 0, 255]) + (144).to_bytes(4, "little") + number.to_bytes(8, "little")
    return (head + bytes(pairs)).ljust(size, b"\0")


def pointer(number):
    return number.to_bytes(4, "little")


def shared(a, b):
    """How many leading bytes are the same."""
    return next((i for i, (x, y) in enumerate(zip(a, b)) if x != y), min(len(a), len(b)))


def packed(entries):
    """The records of keys, in their order, and what stands behind each. The star's key is empty."""
    records, before = [], b""
    for key, rest in entries:
        count = shared(before, key)
        records.append((count, key[count:] + rest))
        before = key
    return records


def number(n):
    """The bytes of a whole number as a subscript."""
    if n == 0:
        return b"\x80"
    digits = str(abs(n))
    front = 0xBF + len(digits) - 1
    digits = digits.rstrip("0")
    digits += "0" * (len(digits) % 2)
    data = bytes([front] + [16 * int(digits[i]) + int(digits[i + 1]) + 1 for i in range(0, len(digits), 2)])
    return data if n > 0 else bytes(255 - b for b in data) + b"\xff"


def string(text):
    """The bytes of a string as a subscript."""
    return b"\xff" + text.replace(b"\1", b"\1\2").replace(b"\0", b"\1\1")


def key(name, *subscripts):
    """The key of a node; a subscript is a whole number, or a string that is no number's text."""
    parts = (number(s) if isinstance(s, int) else string(s) for s in subscripts)
    return name + b"\0" + b"".join(part + b"\0" for part in parts) + b"\0"


def star(number, level=1, size=1024):
    """A block of this level with a star alone."""
    return block(level, packed([(b"", pointer(number))]), size=size)


def leaf(entries, size=1024):
    """A level-0 block of keys, in their order, and what stands behind each."""
    return block(0, packed(entries), size=size)


def thin(globals_, size=1024, total=100, **fields):
    """A thin database with the nodes of each global, by its name. Blocks 3, 5 and so on are the roots."""
    roots = {name: 3 + 2 * i for i, name in enumerate(globals_)}
    directory = leaf([(name + b"\0\0", pointer(root)) for name, root in roots.items()], size)
    blocks = [star(2, size=size), directory]
    for name, root in roots.items():
        blocks += [star(root + 1, size=size), leaf(globals_[name], size)]
    used = set(range(1, 1 + len(blocks)))
    free = sum(1 for n in range(total) if n % 512 and n not in used)
    body = bytearray(b"".join([bitmap(0, used, total, size), *blocks]).ljust(total * size, b"\0"))
    master = bytearray(256)
    for group in range((total + 511) // 512):
        body[group * 512 * size : group * 512 * size + size] = bitmap(group, used, total, size)
        if any(n % 512 and n not in used for n in range(512 * group, min(512 * group + 512, total))):
            master[group // 8] |= 1 << group % 8
    return header(block=size, total=total, free=free, master=bytes(master), **fields) + bytes(body)


def changed(db, *changes):
    """The file with other bytes at places: a place and the bytes, one after another."""
    for at, new in zip(changes[::2], changes[1::2]):
        db = db[:at] + new + db[at + len(new) :]
    return db


def place(number, offset=0):
    """Where a block of 1,024 bytes stands."""
    return HEADER + number * 1024 + offset


class File:
    """A file without a fault, with the nodes of each global in trees whose blocks are filled up to a limit."""

    def __init__(self, globals_, size=512, key=64, value=200, fill=None, spare=20, step=1):
        self.size, self.key, self.value, self.step = size, key, value, step
        self.fill = size if fill is None else fill
        self.blocks, self.last = {}, 2
        trees = [(name, self.tree(sorted(nodes.items()))) for name, nodes in sorted(globals_.items())]
        roots = [(name + b"\0\0", pointer(root)) for name, root in trees]
        self.put(2, 0, roots)
        self.put(1, 1, [(b"", pointer(2))])
        self.total = self.last + 1 + spare

    def next_number(self):
        self.last += self.step
        if self.last % 512 == 0:
            self.last += 1
        return self.last

    def put(self, n, level, entries):
        self.blocks[n] = block(level, packed(entries), size=self.size)

    def rows(self, entries, room):
        """Entries cut into rows that leave some room in a block."""
        row, used, before = [], 16, b""
        for entry in entries:
            size = 4 + len(entry[0]) - shared(before, entry[0]) + len(entry[1])
            if row and used + size > self.fill - room:
                yield row
                row, used, size = [], 16, 4 + len(entry[0]) + len(entry[1])
            row.append(entry)
            used, before = used + size, entry[0]
        yield row

    def tree(self, nodes):
        """The number of the root of these nodes' tree."""
        below = []
        for row in self.rows(nodes, 0):
            n = self.next_number()
            self.put(n, 0, row)
            below.append((row[0][0], n))
        level = 0
        while level == 0 or len(below) > 1:
            level += 1
            # the key of an index record is the first key behind its child
            uppers = [first for first, _ in below[1:]] + [b""]
            entries = [(upper, pointer(n)) for upper, (_, n) in zip(uppers, below)]
            firsts, above, at = [first for first, _ in below], [], 0
            for row in self.rows(entries, 8):
                n = self.next_number()
                # the last child of a block is its star
                self.put(n, level, row[:-1] + [(b"", row[-1][1])])
                above.append((firsts[at], n))
                at += len(row)
            below = above
        return below[0][1]

    def bytes(self):
        used = set(self.blocks)
        groups = range((self.total + 511) // 512)
        maps = {512 * g: bitmap(g, used, self.total, self.size) for g in groups}
        free = sum(1 for n in range(self.total) if n % 512 and n not in used)
        master = bytearray(256)
        for g in groups:
            if any(n % 512 and n not in used for n in range(512 * g, min(512 * g + 512, self.total))):
                master[g // 8] |= 1 << g % 8
        limits = {"block": self.size, "total": self.total, "key": self.key, "value": self.value}
        head = header(free=free, master=bytes(master), **limits)
        zero = bytes(self.size)
        return head + b"".join(maps.get(n) or self.blocks.get(n, zero) for n in range(self.total))
