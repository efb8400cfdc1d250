"""The list of faults of a database file, computed slowly from their definitions in docs/FAULTS.md and docs/FORMAT.md.

It shares no code and no way of going with the program: a path is kept or not by the rule on paths, asked in reading
order, and each kind is asked by its own condition. `faults(file)` answers the lines that INTEG says.
"""

import heapq

HEADER = 8192
GREATEST_BLOCK = 65024
ENDING_OF_HEADER = {"DBFSTHEAD", "DBNOTDB", "DBNOTMLTP", "DBSZGT64K", "DBTTLBLK0", "GDSLIMIT", "DBFSTBC"}
ENDING_OF_BLOCK = {
    "DBBSIZMN", "DBBSIZMX", "DBROOTBURN", "DBINCLVL", "DBRSIZMN", "DBRSIZMX", "DBSTARSIZ", "DBCMPNZRO", "DBCMPMX",
    "DBGTDBMAX", "GDSKEYEND",
}  # fmt: skip


def number_at(data, at, size):
    return int.from_bytes(data[at : at + size], "little")


class Header:
    def __init__(self, file):
        fields = [number_at(file, at, 4) for at in range(8, 36, 4)]
        self.block, self.total, self.free, self.extension, self.limit, self.key, self.value = fields
        self.tn = number_at(file, 40, 8)
        self.groups = (self.total + 511) // 512
        self.master = file[4096:4352]

    def master_bit(self, group):
        return self.master[group // 8] >> (group % 8) & 1

    def length(self):
        return HEADER + self.total * self.block

    def breaks_limit(self):
        return not (
            64 <= self.limit <= 1048576
            and 3 <= self.total <= self.limit
            and 64 <= self.extension <= 65535
            and 3 <= self.key <= 255
            and 16 + 3 * (8 + self.key) <= self.block
            and 20 + self.key + self.value <= self.block
        )


def header_kinds(file, h):
    """All kinds of the header in their order, each with whether it is there."""
    yield "DBFSTHEAD", len(file) < HEADER
    yield "DBNOTDB", file[:8] != b"GDSPROF1"
    yield "DBNOTMLTP", h.block == 0 or h.block % 512 != 0
    yield "DBSZGT64K", h.block > GREATEST_BLOCK
    yield "DBTTLBLK0", h.total == 0
    yield "GDSLIMIT", h.breaks_limit()
    yield "DBFSTBC", len(file) < h.length()
    yield "DBFGTBC", len(file) > h.length()
    reserved = file[36:40] + file[48:4096] + file[4352:HEADER]
    past = any(h.master_bit(group) for group in range(h.groups, 2048))
    yield "GDSRESV", any(reserved) or past
    yield "GDSTN", not 1 <= h.tn <= 2**63


# ---- the bytes of keys


def significant(text):
    """The digits of a text of digits and perhaps a point, from the first to the last that isn't 0, and the exponent."""
    whole, _, part = text.partition(b".")
    digits = whole + part
    first = next((i for i, d in enumerate(digits) if d != 48), None)
    if first is None:
        return None
    return digits.strip(b"0"), len(whole) - 1 - first


def is_canonical(text):
    """Whether a text is that of a canonical number."""
    if text == b"0":
        return True
    body = text[1:] if text[:1] == b"-" else text
    if not body or not all(48 <= b <= 57 or b == 46 for b in body) or body.count(b".") > 1:
        return False
    whole, point, part = body.partition(b".")
    if whole[:1] == b"0" or (point and (not part or part[-1:] == b"0")) or (not point and not whole):
        return False
    found = significant(body)
    return found is not None and len(found[0]) <= 18 and -43 <= found[1] <= 46


def is_number(data):
    """Whether these are the bytes of a number."""
    if data == b"\x80":
        return True
    if data and data[0] < 0x80:
        if data[-1] != 0xFF or len(data) < 2:
            return False
        data = bytes(255 - b for b in data[:-1])
    if not data or not -43 <= data[0] - 0xBF <= 46 or not 1 <= len(data) - 1 <= 9:
        return False
    pairs = [b - 1 for b in data[1:]]
    if any(p < 0 or p >> 4 > 9 or p & 15 > 9 for p in pairs):
        return False
    return pairs[0] >> 4 != 0 and pairs[-1] != 0


def string_of(data):
    """The string whose bytes with escapes these are, or None."""
    out, i = bytearray(), 0
    while i < len(data):
        if data[i] > 1:
            out.append(data[i])
            i += 1
        elif data[i : i + 2] in (b"\x01\x01", b"\x01\x02"):
            out.append(data[i + 1] - 1)
            i += 2
        else:
            return None
    return bytes(out)


def subscript_kind(part):
    if part[:1] != b"\xff":
        return None if is_number(part) else "DBBADNSUB"
    if len(part) == 1:
        return "GDSNULL"
    text = string_of(part[1:])
    return None if text is not None and not is_canonical(text) else "GDSBADSTR"


def name_of(key):
    return key.split(b"\0", 1)[0]


def is_name(name):
    letter = lambda b: 65 <= b <= 90 or 97 <= b <= 122
    if not 1 <= len(name) <= 31 or not (letter(name[0]) or name[0] == 37):
        return False
    return all(letter(b) or 48 <= b <= 57 for b in name[1:])


def subscripts_of(key):
    """What stands behind the name, parted by zero bytes, without the two that end the key."""
    return key[:-2].split(b"\0")[1:]


def key_kind(key):
    if not is_name(name_of(key)):
        return "DBBADKYNM"
    parts = subscripts_of(key)
    if len(parts) > 31:
        return "DBMAXNRSUBS"
    return next((kind for kind in map(subscript_kind, parts) if kind), None)


def shared(a, b):
    return next((i for i, (x, y) in enumerate(zip(a, b)) if x != y), min(len(a), len(b)))


# ---- a block of a tree


class Visit:
    """A block of a tree and what is due there. The name is None in the directory, the level None of a root."""

    def __init__(self, block, name, level, low, high):
        self.block, self.name, self.level, self.low, self.high = block, name, level, low, high


def block_of(file, h, n):
    return file[HEADER + n * h.block : HEADER + (n + 1) * h.block]


def head_kinds(h, visit, data):
    used, level = number_at(data, 4, 4), data[3]
    yield "GDSVERS", number_at(data, 0, 2) != 1 or data[2] != 0
    yield "GDSBLKTN", number_at(data, 8, 8) >= h.tn
    yield "DBBSIZMN", used < 16
    yield "DBBSIZMX", used > h.block
    yield "DBROOTBURN", visit.level is None and level == 0
    yield "DBINCLVL", level > 7 if visit.level is None else level != visit.level
    lawful = level == 0 and visit.name is None and visit.low is None and visit.high is None
    yield "GDSEMPTY", used == 16 and not lawful


def size_kinds(data, at):
    used, level = number_at(data, 4, 4), data[3]
    least = 5 if level == 0 else 8
    left = used - at
    yield "DBRSIZMN", left < 4 or number_at(data, at, 2) < least
    yield "DBRSIZMX", left >= 4 and number_at(data, at, 2) > left


class Record:
    """A record of the right size, read behind the key before it."""

    def __init__(self, h, visit, data, at, before):
        self.at, self.before = at, before
        self.size, self.count = number_at(data, at, 2), number_at(data, at + 2, 2)
        body = data[at + 4 : at + self.size]
        level, used = data[3], number_at(data, 4, 4)
        self.is_last = level > 0 and at + self.size == used
        self.full = before[: self.count] + body
        end = self.full[: h.key].find(b"\0\0")
        self.key = None if end < 0 else self.full[: end + 2]
        self.rest = None if end < 0 else self.full[end + 2 :]
        self.has_values = level == 0 and visit.name is not None
        self.pointer = None
        if self.is_last:
            self.pointer = number_at(body, 0, 4)
        elif self.rest is not None and not self.has_values and len(self.rest) == 4:
            self.pointer = number_at(self.rest, 0, 4)

    def ending_kinds(self, h):
        """The kinds that must be asked before the key is read."""
        first = self.at == 16
        yield "DBSTARSIZ", self.is_last and self.size != 8
        yield "DBSTARCMP", self.is_last and self.count != 0
        if not self.is_last:
            yield "DBCMPNZRO", first and self.count != 0
            yield "DBCMPMX", not first and self.count >= len(self.before)
            yield "DBGTDBMAX", self.key is None and len(self.full) > h.key
            yield "GDSKEYEND", self.key is None and len(self.full) <= h.key

    def key_kinds(self, visit, level):
        yield "DBCMPBAD", self.count != shared(self.before, self.key)
        yield "DBKEYORD", self.key <= self.before
        fault = key_kind(self.key)
        for kind in ("DBBADKYNM", "DBMAXNRSUBS", "DBBADNSUB", "GDSBADSTR", "GDSNULL"):
            yield kind, fault == kind
        yield "DBDIRTSUBSC", visit.name is None and fault is None and bool(subscripts_of(self.key))
        yield "DBINVGBL", visit.name is not None and name_of(self.key) != visit.name
        yield "DBKEYGTIND", visit.high is not None and self.key >= visit.high
        below = visit.low is not None and (self.key < visit.low or (level > 0 and self.key == visit.low))
        yield "DBLTSIBL", below

    def kinds(self, h, visit, level):
        yield from self.ending_kinds(h)
        if not self.is_last:
            yield from self.key_kinds(visit, level)
            yield "GDSREST", not self.has_values and len(self.rest) != 4
            yield "GDSVALUE", self.has_values and len(self.rest) > h.value
        if self.pointer is not None:
            yield "DBPTRNOTPOS", self.pointer == 0 or self.pointer >= 2**31
            yield "DBPTRMX", h.total <= self.pointer < 2**31
            yield "DBPTRMAP", 0 < self.pointer < h.total and self.pointer % 512 == 0


def through_ending(kinds, ending):
    """The kinds that are there, up to the first that ends the reading, and whether one does."""
    found = []
    for kind, there in kinds:
        if there:
            found.append(kind)
            if kind in ending:
                return found, True
    return found, False


def below(h, visit, level, record):
    """Where a sound pointer of a record leads."""
    if level == 0:
        return Visit(record.pointer, name_of(record.key), None, None, None)
    low = visit.low if record.at == 16 else record.before
    high = visit.high if record.is_last else record.key
    return Visit(record.pointer, visit.name, level - 1, low, high)


def read_block(file, h, visit):
    """The faults of a block of a tree, each a kind and an offset, and its records with a sound pointer, each its offset
    and where it leads."""
    data = block_of(file, h, visit.block)
    found, ended = through_ending(head_kinds(h, visit, data), ENDING_OF_BLOCK)
    faults, children = [(kind, 0) for kind in found], []
    at, before, used, level = 16, b"", number_at(data, 4, 4), data[3]
    while not ended and at < used:
        found, ended = through_ending(size_kinds(data, at), ENDING_OF_BLOCK)
        if not ended:
            record = Record(h, visit, data, at, before)
            found, ended = through_ending(record.kinds(h, visit, level), ENDING_OF_BLOCK)
        faults += [(kind, at) for kind in found]
        if ended:
            break
        pointer = record.pointer
        if pointer is not None and 0 < pointer < h.total and pointer % 512 != 0:
            children.append((at, below(h, visit, level, record)))
        before, at = (record.key or b""), at + record.size
    return faults, children


# ---- the trees, the maps and the whole list


def tree_line(kind, block, offset, level, path):
    places = " ".join(f"{b:X}:{o:X}" for b, o in path) or "-"
    return f"{kind} {block:X}:{offset:X} level {level} path {places}"


def tree_faults(file, h):
    """The lines of the trees, and the blocks that kept paths end in."""
    lines, taken = [], set()
    # each path that goes on from a kept one, by its offsets: the least is asked next, so that all earlier ones are
    # known
    waiting = [((), (), Visit(1, None, None, None, None))]
    while waiting:
        offsets, path, visit = heapq.heappop(waiting)
        if visit.block in taken:
            block, offset = path[-1]
            level = block_of(file, h, block)[3]
            lines.append(tree_line("DBBDBALLOC", block, offset, level, path[:-1]))
            continue
        taken.add(visit.block)
        faults, children = read_block(file, h, visit)
        level = block_of(file, h, visit.block)[3]
        lines += [tree_line(kind, visit.block, offset, level, path) for kind, offset in faults]
        for offset, child in children:
            heapq.heappush(waiting, (offsets + (offset,), path + ((visit.block, offset),), child))
    return lines, taken


def pairs_of(data):
    return [data[16 + k // 4] >> 2 * (k % 4) & 3 for k in range(512)]


def map_lines(file, h, taken):
    lines, free_blocks = [], 0
    for group in range(h.groups):
        number = 512 * group
        data = block_of(file, h, number)
        pairs = pairs_of(data)
        present = min(512, h.total - number)
        free = [k for k in range(present) if pairs[k] in (1, 3)]
        free_blocks += len(free)
        used, bit = number_at(data, 4, 4), h.master_bit(group)
        for kind, there in (
            ("GDSVERS", number_at(data, 0, 2) != 1 or data[2] != 0),
            ("GDSBLKTN", number_at(data, 8, 8) >= h.tn),
            ("DBMBSIZMN", used < 144),
            ("DBMBSIZMX", used > 144),
            ("DBLVLINC", data[3] != 255),
            ("DBMBMINCFRE", bit == 1 and not free),
            ("GDSMBFULL", bit == 0 and bool(free)),
        ):
            if there:
                lines.append(f"{kind} {number:X} map")
        for k in range(512):
            here, is_used = k < present, k == 0 or number + k in taken
            for kind, there in (
                ("DBBFSTAT", here and pairs[k] == 2),
                ("DBMRKFREE", here and pairs[k] in (1, 3) and is_used),
                ("DBMRKBUSY", here and pairs[k] == 0 and not is_used),
                ("GDSBEYOND", not here and pairs[k] != 0),
            ):
                if there:
                    lines.append(f"{kind} {number + k:X} map")
    if free_blocks != h.free:
        lines.append("GDSFREE file")
    return lines


def faults(file):
    """The lines of a file's faults, in their order."""
    if len(file) < HEADER:
        return ["DBFSTHEAD file"]
    h = Header(file)
    found, ended = through_ending(header_kinds(file, h), ENDING_OF_HEADER)
    lines = [f"{kind} file" for kind in found]
    if ended:
        return lines
    trees, taken = tree_faults(file, h)
    return lines + trees + map_lines(file, h, taken)
