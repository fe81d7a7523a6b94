#!/usr/bin/env python3
"""Stored sheets with the refusal numbers that docs/FORMAT.md gives them.

An independent reading of docs/FORMAT.md, sections 1 and 3 (refusals 1 to 5). It knows nothing of the crates and imports
nothing of them. The same bytes come out of every run. From the repository's root:

    python3 vectors/make_sheets.py > crates/sheet_check/data/sheets
    python3 vectors/make_sheets.py --list       one line for each sheet: its place, its number, what it is
    python3 vectors/make_sheets.py --counts     how many sheets have each number

The file is a stream of entries. An entry is 12 bytes, integers little-endian, and then the sheet:
byte 0 the number (0: accepted), 1 zero, 2-3 n and 4-5 m where accepted, else 0, 6-7 zero, 8-11 the sheet's length.

A case that is written out below says its number by hand, and the run stops where the reading gives another one. A
changed or grown sheet (the last two groups) has the number that the reading gives. For each sheet the run also tests
that it is accepted exactly where the types that it lists are spelled by the same bytes.
"""
import sys

SEED = 20261115
MOST_RECORDS = 1024
MOST_LABELS = 16384

BOOLEAN, INT8, INT16, INT32, INT64, DATE32 = 2, 3, 4, 5, 6, 18
DECIMALS = {14: 9, 15: 18, 16: 38, 17: 76}
TIME32, TIME64, TIMESTAMP, INTERVAL, DURATION, UTF8 = 20, 21, 22, 23, 24, 25
FIXED_BINARY, LIST, LARGE_LIST, FIXED_LIST, STRUCT, MAP, DICTIONARY, RUN_ENDS = range(31, 39)
UNITS = {TIME32: 4, TIME64: 4, TIMESTAMP: 4, DURATION: 4, INTERVAL: 3}
SIZED = (FIXED_BINARY, FIXED_LIST)
PARTS = {LIST: 1, LARGE_LIST: 1, FIXED_LIST: 1, MAP: 1, DICTIONARY: 2, RUN_ENDS: 2}
FIELDED = (LIST, LARGE_LIST, FIXED_LIST, STRUCT, MAP, RUN_ENDS)

NULLABLE, SORTED, ZONED = 1, 2, 4


# ---- the reading: bytes to a refusal number ----

def u16(s, at):
    return s[at] + 256 * s[at + 1]


def i8(byte):
    return byte - 256 if byte > 127 else byte


def heads(s):
    """The sixteen bytes of record 0, 1, .. n-1."""
    return [s[16 * i:16 * i + 16] for i in range(u16(s, 0))]


def torn(s):
    if len(s) < 16:
        return True
    n, m = u16(s, 0), u16(s, 2)
    return not 1 <= n <= MOST_RECORDS or m > MOST_LABELS or len(s) != 16 * n + m or any(s[4:16])


def bad_kind(s):
    return any(not 1 <= r[0] <= 38 for r in heads(s)[1:])


class Wrong(Exception):
    pass


def walk(records, link, at, parent, parents):
    """Follows the chain from `link`, with `at` the record to be met next.

    Notes each record's parent. Gives the record to be met after the chain, and how many records are in the chain.
    """
    count = 0
    while link != 0:
        if link != at or at >= len(records):
            raise Wrong
        record = records[link]
        parents[link] = parent
        at, parts = walk(records, u16(record, 8), at + 1, link, parents)
        if record[0] != STRUCT and parts != PARTS.get(record[0], 0):
            raise Wrong
        count += 1
        link = u16(record, 10)
    return at, count


def parents_of(s):
    """For each record the record that it is a part of, 0 for a listed type; None where the walk is wrong."""
    records, parents = heads(s), {}
    try:
        at, _ = walk(records, 1 if len(records) > 1 else 0, 1, 0, parents)
    except Wrong:
        return None
    return parents if at == len(records) else None


def bad_chain(s):
    return parents_of(s) is None


def bad_decimal(kind, precision, scale):
    return not 1 <= precision <= DECIMALS[kind] or scale > 0 and scale > precision or precision - scale > 127


def bad_figures(r):
    """Bytes 2 and 3."""
    if r[0] in DECIMALS:
        return bad_decimal(r[0], r[2], i8(r[3]))
    return r[2] >= UNITS.get(r[0], 1) or r[3] != 0


def bad_size(r):
    """Bytes 4 to 7, but for the place and length of a zone, which are label matters."""
    if r[0] in SIZED:
        return r[7] > 127
    return r[7] != 0 if r[1] & ZONED else any(r[4:8])


def bad_flags(r, fielded):
    may = (NULLABLE if fielded else 0) | (SORTED if r[0] == MAP else 0) | (ZONED if r[0] == TIMESTAMP else 0)
    return r[1] & ~may != 0


def bad_figure(s):
    records, parents = heads(s), parents_of(s)
    for i, r in enumerate(records[1:], 1):
        fielded = records[parents[i]][0] in FIELDED and parents[i] != 0
        if bad_flags(r, fielded) or bad_figures(r) or bad_size(r) or r[15] != 0:
            return True
    return False


def labels_of(record):
    """The labels of a record as (offset, length), name before zone."""
    name = [(u16(record, 12), record[14])]
    return name + [(u16(record, 4), record[6])] if record[1] & ZONED else name


def misplaced(s):
    end = 0
    for record in heads(s)[1:]:
        for offset, length in labels_of(record):
            if offset != (end if length else 0):
                return True
            end += length
    return end != u16(s, 2)


def bad_label(s):
    records, parents = heads(s), parents_of(s)
    if misplaced(s):
        return True
    seen = set()
    for i, r in enumerate(records[1:], 1):
        parent = parents[i]
        offset, length = labels_of(r)[0]
        start = 16 * len(records) + offset
        name = (parent, bytes(s[start:start + length]))
        if length and (parent == 0 or records[parent][0] not in FIELDED):
            return True
        if parent != 0 and records[parent][0] == STRUCT and name in seen:
            return True
        seen.add(name)
    return False


CONDITIONS = (torn, bad_kind, bad_chain, bad_figure, bad_label)


def refusal(s):
    """The lowest number whose condition holds, 0 where the sheet is accepted.

    A condition may be asked only of bytes that meet none of the earlier ones.
    """
    for number, holds in enumerate(CONDITIONS, 1):
        if holds(s):
            return number
    return 0


# ---- types as trees, and their one spelling ----

class Type:
    def __init__(self, kind, figure=0, scale=0, size=0, zone=None, is_sorted=False, parts=()):
        self.kind, self.figure, self.scale, self.size = kind, figure, scale, size
        self.zone, self.is_sorted, self.parts = zone, is_sorted, list(parts)


class Field:
    def __init__(self, type, name=b"", nullable=False):
        self.type, self.name, self.nullable = type, name, nullable


def record(kind, flags=0, figure=0, scale=0, four=b"\0\0\0\0", first=0, following=0, name=(0, 0), last=0):
    """Sixteen bytes, with nothing held to any rule."""
    links = first.to_bytes(2, "little") + following.to_bytes(2, "little")
    label = name[0].to_bytes(2, "little") + bytes([name[1], last])
    return bytes([kind, flags, figure, scale % 256]) + four + links + label


def sheet(records, labels=b"", n=None, m=None):
    """A sheet of these records, under a header that counts them unless told otherwise."""
    n = len(records) + 1 if n is None else n
    m = len(labels) if m is None else m
    return n.to_bytes(2, "little") + m.to_bytes(2, "little") + bytes(12) + b"".join(records) + labels


class Spelling:
    def __init__(self):
        self.records, self.labels = [], bytearray()

    def label(self, text):
        place = (len(self.labels) if text else 0, len(text))
        self.labels += text
        return place

    def four(self, type):
        if type.zone is None:
            return type.size.to_bytes(4, "little")
        offset, length = self.label(type.zone)
        return offset.to_bytes(2, "little") + bytes([length, 0])

    def chain(self, fields):
        """Puts the records of a chain; gives the number of its first, 0 for an empty one."""
        start = len(self.records) + 1
        for k, field in enumerate(fields):
            type, here = field.type, len(self.records)
            flags = NULLABLE * field.nullable + SORTED * type.is_sorted + ZONED * (type.zone is not None)
            name = self.label(field.name)
            head = dict(kind=type.kind, flags=flags, figure=type.figure, scale=type.scale, name=name)
            head["four"] = self.four(type)
            self.records.append(None)
            first = self.chain(type.parts)
            following = len(self.records) + 1 if k + 1 < len(fields) else 0
            self.records[here] = record(first=first, following=following, **head)
        return start if fields else 0


def encode(types):
    spelling = Spelling()
    spelling.chain([Field(t) for t in types])
    return sheet(spelling.records, bytes(spelling.labels))


# ---- acceptance a second time: bytes to trees, and back ----

def read_chain(records, labels, link, budget):
    fields = []
    while link != 0:
        budget[0] -= 1
        if budget[0] < 0 or link >= len(records):
            raise Wrong
        r = records[link]
        places = [labels[offset:offset + length] for offset, length in labels_of(r)]
        size = int.from_bytes(r[4:8], "little") if r[0] in SIZED else 0
        zone = places[1] if r[1] & ZONED else None
        parts = read_chain(records, labels, u16(r, 8), budget)
        read = Type(r[0], r[2], i8(r[3]), size, zone, bool(r[1] & SORTED), parts)
        fields.append(Field(read, places[0], bool(r[1] & NULLABLE)))
        link = u16(r, 10)
    return fields


def may_stand(field, parent):
    """Whether a type may stand in a sheet, in its place below `parent` (None: a listed type)."""
    t = field.type
    named = [p.name for p in t.parts]
    if t.kind in DECIMALS:
        figures = 0 < t.figure <= DECIMALS[t.kind] and t.figure - 127 <= t.scale <= t.figure
    else:
        figures = t.figure < UNITS.get(t.kind, 1) and t.scale == 0
    return (1 <= t.kind <= 38 and figures and t.size < 2 ** 31
            and (t.kind == STRUCT or len(named) == PARTS.get(t.kind, 0))
            and (t.kind != STRUCT or len(set(named)) == len(named))
            and (t.kind == TIMESTAMP or t.zone is None) and (t.kind == MAP or not t.is_sorted)
            and (parent in FIELDED or not field.name and not field.nullable)
            and all(may_stand(p, t.kind) for p in t.parts))


def respelled(s):
    """Whether the sheet is the spelling of types that may stand in one."""
    if torn(s):
        return False
    records, labels = heads(s), s[16 * u16(s, 0):]
    try:
        fields = read_chain(records, labels, 1 if len(records) > 1 else 0, [MOST_RECORDS])
    except Wrong:
        return False
    return all(may_stand(f, None) for f in fields) and encode([f.type for f in fields]) == s


# ---- types to write cases with ----

def zoned(zone, unit=0):
    return Type(TIMESTAMP, unit, zone=zone)


def holding(kind, *parts, size=0, is_sorted=False):
    """A type of `kind` over parts that are types, named types as (name, type), or fields."""
    fields = [p if isinstance(p, Field) else Field(p) if isinstance(p, Type) else Field(p[1], p[0]) for p in parts]
    return Type(kind, size=size, is_sorted=is_sorted, parts=fields)


def any_of(kind):
    """A plain type of the kind."""
    figures = {k: (cap, 2) for k, cap in DECIMALS.items()}
    if kind == STRUCT:
        return holding(kind, (b"a", Type(INT8)), (b"b", Type(UTF8)))
    if kind in PARTS:
        return holding(kind, *[Type(INT32)] * PARTS[kind])
    return Type(kind, *figures.get(kind, (0, 0)))


def fields_named(names, kind=INT8):
    return holding(STRUCT, *[(name, Type(kind)) for name in names])


def nested(depth):
    t = Type(INT8)
    for _ in range(depth):
        t = holding(LIST, t)
    return t


def numbered_names(count):
    return [b"%d" % k for k in range(count)]


def long_names(total):
    """Names of 255 bytes, all different, the last one shorter, `total` bytes together."""
    sizes = [255] * (total // 255) + [total % 255] * (total % 255 > 0)
    return [bytes([65 + k % 26, 97 + k // 26]) + b"x" * (size - 2) for k, size in enumerate(sizes)]


def edited(s, *changes):
    """The sheet with bytes changed: (record, byte of the record, value)."""
    out = bytearray(s)
    for i, byte, value in changes:
        out[16 * i + byte] = value
    return bytes(out)


def sample():
    """Thirteen records with every sort of label: the ground for edits. The record numbers stand at the right."""
    inner = fields_named([b"id", b"name"], INT64)
    return encode([
        Type(INT8),                                                            # 1
        holding(STRUCT,                                                        # 2
                Field(Type(16, 38, 10), b"price", True),                       # 3
                Field(zoned(b"Europe/Zurich", 3), b"counted"),                 # 4
                Field(holding(LIST, Field(inner, b"item")), b"lots")),         # 5, 6, 7, 8
        holding(DICTIONARY, Type(INT16), Type(UTF8)),                          # 9, 10, 11
        zoned(b"UTC"),                                                         # 12
        Type(FIXED_BINARY, size=16)])                                          # 13


# ---- the cases: (what it is, the number, the bytes) ----

def kinds_accepted():
    for kind in range(1, 39):
        yield f"kind {kind} listed alone", 0, encode([any_of(kind)])
        part = Field(any_of(kind), b"part", True)
        yield f"kind {kind} as a named, nullable part of a List", 0, encode([holding(LIST, part)])
    yield "all kinds in one list", 0, encode([any_of(k) for k in range(1, 39)])
    fields = [(b"k%d" % k, any_of(k)) for k in range(1, 39)]
    yield "all kinds as fields of one Struct", 0, encode([holding(STRUCT, *fields)])
    for kind in FIELDED:
        parts = [Field(Type(INT8), b"n%d" % k, k % 2 == 0) for k in range(PARTS.get(kind, 3))]
        yield f"parts of kind {kind} with names, one nullable", 0, encode([holding(kind, *parts)])
    yield "a Map that is sorted", 0, encode([holding(MAP, any_of(STRUCT), is_sorted=True)])
    yield "a Map over a part that is no Struct", 0, encode([holding(MAP, Type(1))])
    yield "a Dictionary whose index is a List", 0, encode([holding(DICTIONARY, any_of(LIST), Type(UTF8))])
    yield "run ends of any kind", 0, encode([holding(RUN_ENDS, Type(UTF8), any_of(DICTIONARY))])
    yield "the part of a List that is a Dictionary's value, named and nullable", 0, encode(
        [holding(DICTIONARY, Type(INT8), holding(LIST, Field(Type(INT8), b"item", True)))])
    yield "the sample", 0, sample()


def limits_accepted():
    full = fields_named(long_names(MOST_LABELS))
    yield "n = 1, the empty list", 0, encode([])
    yield "n = 2", 0, encode([Type(1)])
    yield "n = 1024, a flat list", 0, encode([Type(1 + k % 13) for k in range(1023)])
    yield "n = 1024, 1022 Lists nested", 0, encode([nested(1022)])
    yield "n = 1024, a Struct of 1022 fields", 0, encode([fields_named(numbered_names(1022))])
    yield "m = 16384", 0, encode([full])
    yield "n = 1024 and m = 16384", 0, encode([full] + [Type(INT8)] * (1022 - len(full.parts)))
    yield "a Struct without fields", 0, encode([Type(STRUCT)])
    yield "a Struct of one field", 0, encode([fields_named([b"only"])])
    yield "600 Lists nested, each with a name", 0, encode([chain_of_names(600)])
    for n in (255, 256, 257):
        yield f"n = {n}", 0, encode([Type(INT8)] * (n - 1))
    for m in (255, 256, 257):
        yield f"m = {m}", 0, encode([fields_named(long_names(m + 1)[:1] + [b"y" * (m - 255)] * (m > 255))])


def chain_of_names(depth):
    t = Type(BOOLEAN)
    for k in range(depth):
        t = holding(LIST, Field(t, b"abc"[:k % 4], k % 3 == 0))
    return t


def figures_accepted():
    for kind, cap in DECIMALS.items():
        for p, s in ((1, 0), (1, 1), (cap, 0), (cap, cap), (cap, -1), (1, -126), (cap, cap - 127)):
            yield f"kind {kind} with ({p},{s})", 0, encode([Type(kind, p, s)])
    for kind, units in UNITS.items():
        for unit in range(units):
            yield f"kind {kind} with unit {unit}", 0, encode([Type(kind, unit)])
    for size in (0, 1, 255, 65536, 2 ** 31 - 1):
        yield f"FixedSizeBinary of size {size}", 0, encode([Type(FIXED_BINARY, size=size)])
        yield f"FixedSizeList of size {size}", 0, encode([holding(FIXED_LIST, Type(INT8), size=size)])


def labels_accepted():
    a, long = b"a", b"x" * 254
    pairs = {"a name and a longer one": (a, b"ab"), "a name and the same with a zero byte": (a, a + b"\0"),
             "no name and a name of one zero byte": (b"", b"\0"), "one and two zero bytes": (b"\0", b"\0\0"),
             "names of 255 bytes that differ at the end": (long + b"1", long + b"2"),
             "names of 255 bytes that differ at the start": (b"1" + long, b"2" + long),
             "names of 254 and 255 bytes": (long, long + b"x"), "names that differ in case": (a, b"A"),
             "names that are not UTF-8": (b"\xff\xfe", b"\xff\xfd")}
    for what, names in pairs.items():
        yield f"a Struct with {what}", 0, encode([fields_named(names)])
    yield "one field without a name among named ones", 0, encode([fields_named([a, b"", b"c"])])
    yield "the same names in two Structs", 0, encode([fields_named([a, b"b"]), fields_named([a, b"b"])])
    yield "the same name in a Struct and in its field", 0, encode([holding(STRUCT, (a, fields_named([a])))])
    cousin = fields_named([b"c"])
    yield "the same name in cousins", 0, encode([holding(STRUCT, (a, cousin), (b"b", cousin))])
    yield "equal names in run ends", 0, encode([holding(RUN_ENDS, (a, Type(INT16)), (a, Type(UTF8)))])
    yield "no names in run ends", 0, encode([holding(RUN_ENDS, Type(INT16), Type(UTF8))])
    for size in (0, 1, 255):
        yield f"a zone of {size} bytes", 0, encode([zoned(b"z" * size)])
    yield "a zone that equals a name", 0, encode([holding(STRUCT, (a, zoned(a)), (b"b", zoned(a)))])
    yield "an empty zone between labels", 0, encode([holding(STRUCT, (a, zoned(b"")), (b"b", zoned(b"UTC")))])
    yield "zones without names", 0, encode([holding(LIST, zoned(b"UTC")), zoned(b"Asia/Tokyo"), zoned(b"")])
    yield "zones in the parts of a Dictionary", 0, encode([holding(DICTIONARY, zoned(b"A"), zoned(b"B"))])


def torn_short():
    good = sample()
    yield "the empty input", 1, b""
    for size in (1, 2, 4, 15):
        yield f"the first {size} bytes of a good sheet", 1, good[:size]
    yield "15 bytes of an empty list", 1, encode([])[:15]
    yield "15 bytes of 255", 1, b"\xff" * 15
    yield "16 bytes of 255", 1, b"\xff" * 16
    yield "16 zero bytes", 1, bytes(16)
    yield "the header of a good sheet alone", 1, good[:16]
    yield "one byte short", 1, good[:-1]
    yield "one byte too many", 1, good + b"\0"
    yield "one byte too many after an empty list", 1, encode([]) + b"\0"
    yield "one byte short, without labels", 1, encode([Type(INT8)])[:-1]
    yield "one byte too many, without labels", 1, encode([Type(INT8)]) + b"\0"
    yield "one record short", 1, edited(encode([Type(INT8)] * 3), (0, 0, 5))
    yield "one record too many", 1, encode([Type(INT8)] * 3) + record(INT8)
    yield "the labels left out", 1, good[:16 * u16(good, 0)]
    yield "a good sheet twice", 1, good + good
    yield "a zero byte before a good sheet", 1, b"\0" + good


def torn_counts():
    good, small = sample(), encode([Type(INT8)])
    big = encode([Type(INT8)] * 1023)
    yield "n = 0, nothing else wrong", 1, sheet([], bytes(16), n=0)[:16]
    yield "n = 0 over a good sheet", 1, edited(good, (0, 0, 0))
    yield "n = 1025, nothing else wrong", 1, sheet([record(INT8, following=(k + 2) % 1025) for k in range(1024)])
    yield "n = 1025 over 1024 records", 1, edited(big, (0, 0, 1))
    yield "n = 65535", 1, edited(small, (0, 0, 255), (0, 1, 255))
    yield "n big-endian", 1, edited(small, (0, 0, 0), (0, 1, 2))
    yield "m = 16385, nothing else wrong", 1, encode([fields_named(long_names(MOST_LABELS + 1))])
    yield "m = 65535", 1, edited(small, (0, 2, 255), (0, 3, 255))
    yield "m one too large", 1, edited(good, (0, 2, good[2] + 1))
    yield "m one too small", 1, edited(good, (0, 2, good[2] - 1))
    yield "m big-endian", 1, edited(good, (0, 2, good[3]), (0, 3, good[2]))
    yield "n less by one and m more by 16: not torn, the walk is wrong", 3, edited(
        good, (0, 0, good[0] - 1), (0, 2, good[2] + 16))


def torn_header():
    good = sample()
    for byte in range(4, 16):
        yield f"header byte {byte} is 1", 1, edited(good, (0, byte, 1))
    for byte in (4, 9, 15):
        yield f"header byte {byte} is 128", 1, edited(good, (0, byte, 128))
    yield "header byte 8 names record 1", 1, edited(encode([Type(INT8)]), (0, 8, 1))
    yield "header byte 15 of an empty list is 255", 1, edited(encode([]), (0, 15, 255))


def kind_cases():
    good = sample()
    for kind in (0, 39, 40, 64, 128, 255):
        yield f"kind {kind} listed alone", 2, sheet([record(kind)])
        yield f"kind {kind} in the last record", 2, edited(good, (13, 0, kind))
        yield f"kind {kind} in a part", 2, edited(good, (8, 0, kind))
    for kind in (0, 39, 255):
        yield f"kind {kind} in a record that the walk never meets", 2, sheet([record(INT8), record(kind)])
        yield f"kind {kind} in a record with parts", 2, edited(good, (2, 0, kind))
    skipped = sheet([record(INT8, following=3), record(0), record(INT8)])
    yield "kind 0 in a record that is skipped", 2, skipped
    yield "records of zeros", 2, sheet([bytes(16)] * 3)
    yield "records of 255", 2, sheet([b"\xff" * 16] * 3)


def parts_cases():
    for kind in range(1, 32):
        figure = any_of(kind).figure
        yield f"a part below kind {kind}", 3, sheet([record(kind, figure=figure, first=2), record(INT8)])
    leaf = record(INT8)
    for kind, count in PARTS.items():
        for given in range(5):
            if given != count:
                parts = [record(INT8, following=k + 3 if k + 1 < given else 0) for k in range(given)]
                yield f"kind {kind} with {given} parts", 3, sheet([record(kind, first=2 if given else 0)] + parts)
    yield "a List whose part follows it as listed", 3, sheet([record(LIST, following=2), leaf])
    yield "a List without a part at the end", 3, sheet([record(INT8, following=2), record(LIST)])
    yield "a Dictionary whose value is listed", 3, sheet([record(DICTIONARY, first=2, following=3), leaf, leaf])
    yield "a listed type taken into a Dictionary", 3, sheet(
        [record(DICTIONARY, first=2), record(INT8, following=3), record(INT8, following=4), leaf])


def links_cases():
    row = [record(INT8, following=k + 2) for k in range(4)] + [record(INT8)]
    nexts = {"to itself": 3, "to the record before": 2, "to record 1": 1, "over one record": 5, "to n": 6, "past n": 7,
             "to 65535": 65535, "big-endian": 4 * 256, "nowhere": 0}
    for what, link in nexts.items():
        yield f"next goes {what}", 3, sheet(row[:2] + [record(INT8, following=link)] + row[3:])
    lasts = {"to itself": 5, "to the record before": 4, "to record 1": 1, "to n": 6, "to 65535": 65535}
    for what, link in lasts.items():
        yield f"next of the last record goes {what}", 3, sheet(row[:4] + [record(INT8, following=link)])
    firsts = {"to itself": 2, "to its parent": 1, "over one record": 4, "to n": 5, "past n": 9, "to 65535": 65535,
              "big-endian": 3 * 256, "nowhere": 0}
    for what, link in firsts.items():
        yield f"first part goes {what}", 3, sheet(
            [record(STRUCT, first=2), record(LIST, first=link), record(LIST, first=4), record(INT8)])
    yield "one record, next to itself", 3, sheet([record(INT8, following=1)])
    yield "one Struct, first part itself", 3, sheet([record(STRUCT, first=1)])
    yield "next and first part are one record", 3, sheet([record(LIST, first=2, following=2), record(INT8)])


def walk_cases():
    leaf = record(INT8)
    yield "an unreached record at the end", 3, sheet([leaf, leaf])
    yield "an unreached record of a good sheet", 3, sheet([record(LIST, first=2), leaf, leaf])
    yield "an unreached record between", 3, sheet([record(INT8, following=3), leaf, leaf])
    yield "an unreached first part", 3, sheet([record(STRUCT, first=3), leaf, leaf])
    yield "a Struct's fields in the other order", 3, sheet(
        [record(STRUCT, first=3), record(INT8, name=(1, 1)), record(INT8, following=2, name=(0, 1))], b"ab")
    yield "the next met before the parts", 3, sheet([record(LIST, first=3, following=2), leaf, leaf])
    yield "parts before their parent", 3, sheet([record(INT8, following=3), leaf, record(LIST, first=2)])
    yield "one part below two Lists", 3, sheet([record(LIST, first=2, following=3), leaf, record(LIST, first=2)])
    yield "one part below two Lists, another record never met", 3, sheet(
        [record(LIST, first=2, following=3), leaf, record(LIST, first=2), leaf])
    yield "a cycle of next", 3, sheet([record(INT8, following=2), record(INT8, following=1)])
    yield "a cycle of parts", 3, sheet([record(LIST, first=2), record(LIST, first=1)])
    yield "a part whose next is its parent", 3, sheet([record(STRUCT, first=2), record(INT8, following=1)])
    yield "a part whose next is its parent's next", 3, sheet(
        [record(LIST, first=2, following=3), record(INT8, following=3), leaf])
    yield "a cycle apart from the walk", 3, sheet([leaf, record(INT8, following=3), record(INT8, following=2)])
    yield "a Struct's fields that go on in the next Struct", 3, sheet(
        [record(STRUCT, first=2, following=4), record(INT8, following=3), record(INT8, following=5, name=(0, 1)),
         record(STRUCT, first=5), record(INT8, name=(1, 1))], b"ab")
    deep = [record(LIST, first=k + 2) for k in range(400)]
    yield "400 Lists, the innermost without a part", 3, sheet(deep[:-1] + [record(LIST)])
    yield "400 Lists, the innermost over the outermost", 3, sheet(deep[:-1] + [record(LIST, first=1)])


def decimal_cases():
    for kind, cap in DECIMALS.items():
        wrong = {"precision 0": (0, 0), "precision 0 and a negative scale": (0, -1),
                 "precision above the cap": (cap + 1, 0), "precision 255": (255, 0),
                 "scale above the precision": (cap - 1, cap), "scale 2 of precision 1": (1, 2),
                 "scale 127": (cap, 127), "p - s = 128": (1, -127), "p - s = 128 at the cap": (cap, cap - 128),
                 "scale -128": (cap, -128)}
        for what, (p, s) in wrong.items():
            yield f"kind {kind}: {what}", 4, sheet([record(kind, figure=p, scale=s)])


def unit_cases():
    for kind, units in UNITS.items():
        for unit in sorted({units, 4, 255}):
            yield f"kind {kind} with unit {unit}", 4, sheet([record(kind, figure=unit)])
        yield f"kind {kind} with a scale", 4, sheet([record(kind, scale=1)])
    for kind in sorted(set(range(1, 39)) - set(UNITS) - set(DECIMALS)):
        good = encode([any_of(kind)])
        yield f"byte 2 of kind {kind}", 4, edited(good, (1, 2, 1))
        yield f"byte 3 of kind {kind}", 4, edited(good, (1, 3, 255))


def size_cases():
    for kind in SIZED:
        good = encode([any_of(kind)])
        yield f"kind {kind} of size -1", 4, edited(good, *[(1, byte, 255) for byte in range(4, 8)])
        yield f"kind {kind} of the least size", 4, edited(good, (1, 7, 128))
    for kind in sorted(set(range(1, 39)) - set(SIZED)):
        yield f"a size on kind {kind}", 4, edited(encode([any_of(kind)]), (1, 4 + kind % 4, 1))
    for byte in range(4, 8):
        yield f"byte {byte} of a Timestamp without a zone", 4, edited(encode([Type(TIMESTAMP)]), (1, byte, 1))
        yield f"byte {byte} of a List", 4, edited(encode([any_of(LIST)]), (1, byte, 128))
    for value in (1, 128):
        yield f"byte 7 is {value} beside a zone", 4, edited(encode([zoned(b"UTC")]), (1, 7, value))
        yield f"byte 7 is {value} beside an empty zone", 4, edited(encode([zoned(b"")]), (1, 7, value))
    for kind in (1, TIMESTAMP, FIXED_BINARY, STRUCT, RUN_ENDS):
        yield f"byte 15 of kind {kind}", 4, edited(encode([any_of(kind)]), (1, 15, 1))
    yield "byte 15 of a named part", 4, edited(sample(), (3, 15, 128))


def flag_cases():
    for bit in range(3, 8):
        yield f"bit {bit} of byte 1", 4, sheet([record(INT8, flags=1 << bit)])
        yield f"bit {bit} of byte 1 on a nullable part", 4, edited(sample(), (3, 1, NULLABLE + (1 << bit)))
    for kind in sorted(set(range(1, 39)) - {MAP}):
        yield f"sorted on kind {kind}", 4, edited(encode([any_of(kind)]), (1, 1, SORTED))
    for kind in sorted(set(range(1, 39)) - {TIMESTAMP}):
        yield f"a zone present on kind {kind}", 4, edited(encode([any_of(kind)]), (1, 1, ZONED))
    for kind in (1, INT8, TIMESTAMP, STRUCT, MAP, DICTIONARY):
        yield f"a listed type of kind {kind} that is nullable", 4, edited(encode([any_of(kind)]), (1, 1, NULLABLE))
    yield "a second listed type that is nullable", 4, sheet([record(INT8, following=2), record(INT8, flags=NULLABLE)])
    pairs = encode([any_of(DICTIONARY)])
    yield "a Dictionary's index that is nullable", 4, edited(pairs, (2, 1, NULLABLE))
    yield "a Dictionary's value that is nullable", 4, edited(pairs, (3, 1, NULLABLE))
    yield "a Dictionary's value that is nullable, in a List", 4, edited(
        encode([holding(LIST, any_of(DICTIONARY))]), (4, 1, NULLABLE))
    yield "sorted on the part of a Map", 4, edited(encode([any_of(MAP)]), (2, 1, SORTED))
    yield "the zone's bit taken from a Timestamp", 4, edited(sample(), (12, 1, 0))
    yield "a Timestamp with a zone made a Date32", 4, edited(sample(), (12, 0, DATE32))


def label_place_cases():
    two = fields_named([b"ab", b"cd"])
    stamp = holding(STRUCT, (b"ab", zoned(b"UTC")), (b"cd", Type(INT8)))
    good, with_zone = encode([two]), encode([stamp])
    yield "the first name at 1", 5, edited(good, (2, 12, 1))
    yield "the second name at 0, over the first", 5, edited(good, (3, 12, 0))
    yield "the second name at 3, past m", 5, edited(good, (3, 12, 3))
    yield "the second name at 65535", 5, edited(good, (3, 12, 255), (3, 13, 255))
    yield "the second name at 65535, 255 bytes", 5, edited(good, (3, 12, 255), (3, 13, 255), (3, 14, 255))
    yield "a name's offset big-endian", 5, edited(good, (3, 12, 0), (3, 13, 2))
    yield "the last name one byte longer, past m", 5, edited(good, (3, 14, 3))
    yield "the last name one byte shorter, a byte of no label", 5, edited(good, (3, 14, 1))
    yield "the first name one byte shorter, a gap", 5, edited(good, (2, 14, 1))
    yield "the first name one byte longer, an overlap", 5, edited(good, (2, 14, 3))
    yield "names in the other order", 5, edited(good, (2, 12, 2), (3, 12, 0))
    yield "the zone one byte shorter, a gap", 5, edited(with_zone, (2, 6, 2))
    yield "the zone one byte longer, an overlap", 5, edited(with_zone, (2, 6, 4))
    yield "the zone at 0, over the name", 5, edited(with_zone, (2, 4, 0))
    yield "the zone's offset in its high byte", 5, edited(with_zone, (2, 4, 0), (2, 5, 2))
    yield "zone before name", 5, edited(with_zone, (2, 4, 0), (2, 12, 3))
    yield "the next name before the zone", 5, edited(with_zone, (2, 4, 4), (3, 12, 2))
    yield "a gap before the first label", 5, shifted(good, 1)
    yield "the first name counted as none, its bytes left", 5, edited(good, (2, 14, 0))
    full = encode([fields_named(long_names(MOST_LABELS))])
    last = u16(full, 0) - 1
    yield "m = 16384, the last name one byte shorter", 5, edited(full, (last, 14, full[16 * last + 14] - 1))


def shifted(s, by):
    """Every label of a Struct of two fields moved up by `by` bytes."""
    return edited(s, (2, 12, s[44] + by), (3, 12, s[60] + by), (0, 2, s[2] + by)) + b"x" * by


def label_bytes_cases():
    leaf = record(INT8)
    yield "one byte that belongs to no label", 5, edited(encode([Type(INT8)]), (0, 2, 1)) + b"a"
    yield "one byte after all labels", 5, edited(sample(), (0, 2, sample()[2] + 1)) + b"a"
    yield "a byte of no label after a Struct without fields", 5, sheet([record(STRUCT)], b"a")
    yield "16 zero bytes of no label", 5, sheet([leaf], bytes(16))
    yield "the empty list with a label byte", 5, sheet([], b"a")
    yield "the empty list with 16384 label bytes", 5, sheet([], b"a" * MOST_LABELS)
    yield "a name without label bytes", 5, sheet([record(LIST, first=2), record(INT8, name=(0, 1))])
    yield "a name of 255 without label bytes", 5, sheet([record(LIST, first=2), record(INT8, name=(0, 255))])
    yield "a zone without label bytes", 5, sheet([record(TIMESTAMP, ZONED, four=b"\0\0\3\0")])
    yield "an empty name with an offset", 5, sheet([record(LIST, first=2), record(INT8, name=(1, 0))])
    yield "an empty name at the place of the next label", 5, sheet(
        [record(STRUCT, first=2), record(INT8, following=3, name=(0, 1)), record(INT8, name=(1, 0))], b"a")
    yield "an empty name with an offset in its high byte", 5, sheet(
        [record(LIST, first=2), record(INT8, name=(256, 0))])
    yield "an empty zone with an offset", 5, sheet([record(TIMESTAMP, ZONED, four=b"\1\0\0\0")])
    yield "an empty zone with an offset in its high byte", 5, sheet([record(TIMESTAMP, ZONED, four=b"\0\1\0\0")])
    yield "an empty zone at the place of the next label", 5, sheet(
        [record(LIST, first=2), record(TIMESTAMP, ZONED, four=b"\1\0\0\0", name=(0, 1))], b"a")
    row = [record(INT8, following=k + 3, name=(255 * k % 65536, 255)) for k in range(258)]
    yield "names that together pass 65535", 5, sheet(
        [record(STRUCT, first=2)] + row + [record(INT8, name=(254, 1))], b"a" * 255)
    yield "a zone past m", 5, sheet([record(TIMESTAMP, ZONED, four=b"\0\0\4\0")], b"UTC")
    yield "a zone at 1", 5, sheet([record(TIMESTAMP, ZONED, four=b"\1\0\2\0")], b"UTC")


def label_where_none_may_be():
    named = record(INT8, name=(0, 1))
    yield "a listed type with a name", 5, sheet([named], b"a")
    yield "the second listed type with a name", 5, sheet([record(INT8, following=2), named], b"a")
    yield "a listed Struct with a name", 5, sheet([record(STRUCT, name=(0, 1))], b"a")
    yield "a listed Timestamp with a name and a zone", 5, sheet(
        [record(TIMESTAMP, ZONED, four=b"\1\0\3\0", name=(0, 1))], b"aUTC")
    yield "a Dictionary's index with a name", 5, sheet(
        [record(DICTIONARY, first=2), record(INT8, following=3, name=(0, 1)), record(UTF8)], b"a")
    yield "a Dictionary's value with a name", 5, sheet(
        [record(DICTIONARY, first=2), record(INT8, following=3), record(UTF8, name=(0, 1))], b"a")
    yield "a Dictionary's value with a name, in a Struct", 5, sheet(
        [record(STRUCT, first=2), record(DICTIONARY, first=3, name=(0, 1)), record(INT8, following=4),
         record(UTF8, name=(1, 1))], b"ab")
    for byte in (12, 13):
        yield f"a listed type without a name, byte {byte}", 5, sheet([edited(record(INT8), (0, byte, 1))])
        yield f"a Dictionary's index without a name, byte {byte}", 5, edited(encode([any_of(DICTIONARY)]), (2, byte, 1))


def header_like_a_record():
    """Lists so long that the low byte of n, where a record has its kind, is the kind of a type with fields."""
    for kind in FIELDED:
        for n in (kind, 256 + kind) if kind == STRUCT else (kind,):
            row = [record(INT8, following=k + 2) for k in range(n - 2)]
            yield f"n = {n}, a flat list", 0, sheet(row + [record(INT8)])
            yield f"n = {n}, a listed type that is nullable", 4, sheet(row + [record(INT8, NULLABLE)])
            yield f"n = {n}, a listed type with a name", 5, sheet(row + [record(INT8, name=(0, 1))], b"a")


def equal_names():
    a, apart = b"a", numbered_names(40)
    yield "two equal names", 5, encode([fields_named([a, a])])
    yield "two fields without names", 5, encode([fields_named([b"", b""])])
    yield "two fields without names, far apart", 5, encode([fields_named([b""] + apart + [b""])])
    yield "equal names, far apart", 5, encode([fields_named(apart + apart[:1])])
    yield "equal names at the end", 5, encode([fields_named(apart + apart[-1:])])
    yield "three equal names", 5, encode([fields_named([a, a, a])])
    yield "equal names of 255 bytes", 5, encode([fields_named([b"x" * 255, b"x" * 255])])
    yield "equal names of one zero byte", 5, encode([fields_named([b"\0", b"\0"])])
    yield "equal names of unlike types", 5, encode([holding(STRUCT, (a, Type(INT8)), (a, Type(UTF8)))])
    yield "equal names, one nullable", 5, encode([holding(STRUCT, Field(Type(INT8), a, True), Field(Type(INT8), a))])
    yield "equal names with a Struct between", 5, encode([holding(STRUCT, (a, fields_named(apart)), (a, Type(INT8)))])
    yield "equal names in a Struct in a List", 5, encode([holding(LIST, fields_named([a, a]))])
    yield "equal names in a Dictionary's value", 5, encode(
        [holding(DICTIONARY, Type(INT8), fields_named([b"b", a, a]))])
    yield "equal names in a Map's entries", 5, encode([holding(MAP, fields_named([a, a]))])
    yield "equal names in the last of many Structs", 5, encode([fields_named([a, b"b"])] * 9 + [fields_named([a, a])])
    yield "equal names in the first of many Structs", 5, encode([fields_named([a, a])] + [fields_named([a, b"b"])] * 9)
    yield "300 fields, the last named as the first", 5, encode([fields_named(numbered_names(299) + [b"0"])])
    yield "equal names and a byte of no label", 5, edited(encode([fields_named([a, a])]), (0, 2, 3)) + b"b"


# ---- two and more conditions at once: the lowest number wins, wherever it stands ----

def faults():
    """For the sample, edits that bring about each condition alone: early and late in the sheet, at different bytes."""
    return {
        1: [("header byte 7", [(0, 7, 1)]), ("n", [(0, 0, 15)]), ("m", [(0, 2, 0)])],
        2: [("kind of record 1", [(1, 0, 0)]), ("kind of record 13", [(13, 0, 39)]),
            ("kind of record 8", [(8, 0, 255)])],
        3: [("next of record 1", [(1, 10, 9)]), ("next of record 13", [(13, 10, 1)]),
            ("next of record 9", [(9, 10, 0)])],
        4: [("precision of record 3", [(3, 2, 0)]), ("unit of record 12", [(12, 2, 4)]),
            ("byte 1 of record 1", [(1, 1, 1)])],
        5: [("name of record 4", [(4, 14, 6)]), ("zone of record 12", [(12, 6, 2)]),
            ("name of record 3", [(3, 12, 1)])],
    }


def conditions_alone():
    for number, choices in faults().items():
        for what, changes in choices:
            yield f"the sample, {what}", number, edited(sample(), *changes)


def conditions_in_pairs():
    for low, choices in faults().items():
        for high in range(low + 1, 6):
            for what, changes in choices:
                for other, more in faults()[high]:
                    yield f"the sample, {what} and {other}", low, edited(sample(), *changes, *more)


def conditions_in_company():
    for chosen in range(1, 32):
        numbers = [k for k in range(1, 6) if chosen >> (k - 1) & 1]
        for turn in range(3):
            if len(numbers) > 2:
                picked = [faults()[k][(turn + k) % 3] for k in numbers]
                what = " and ".join(name for name, _ in picked)
                changes = [change for _, some in picked for change in some]
                yield f"the sample, {what}", numbers[0], edited(sample(), *changes)


def one_record_in_company():
    yield "a listed type, nullable and named", 4, sheet([record(INT8, NULLABLE, name=(0, 1))], b"a")
    yield "a Dictionary's index, nullable and named", 4, sheet(
        [record(DICTIONARY, first=2), record(INT8, NULLABLE, following=3, name=(0, 1)), record(UTF8)], b"a")
    yield "a zone on a Date32 with its label", 4, sheet([record(DATE32, ZONED, four=b"\0\0\3\0")], b"UTC")
    yield "a zone without its bit with its label", 4, sheet([record(TIMESTAMP, four=b"\0\0\3\0")], b"UTC")
    yield "a zone out of its place and byte 7", 4, sheet([record(TIMESTAMP, ZONED, four=b"\1\0\3\1")], b"UTC")
    yield "bytes 12 to 15 all wrong", 4, sheet([record(INT8, name=(257, 1), last=1)])
    yield "a label byte of no label and byte 15", 4, sheet([record(INT8, last=1)], b"a")
    yield "equal names and a precision of 0", 4, edited(encode([fields_named([b"a", b"a"], 14)]), (2, 2, 1))
    yield "all bytes of a record 1", 3, sheet([bytes([1] * 16)])
    yield "a part below a Decimal of precision 0", 3, sheet([record(14, first=2), record(INT8)])
    yield "an unreached record with a bad figure", 3, sheet([record(INT8), record(14)])
    yield "an unreached record with a name", 3, sheet([record(INT8), record(INT8, name=(0, 1))], b"a")
    yield "a List of no part, nullable, named", 3, sheet([record(LIST, NULLABLE, name=(0, 1))], b"a")
    yield "kind 0 with a part, all else wrong too", 2, sheet([record(0, 255, 255, 1, b"\xff" * 4, 9, 9, (9, 9), 9)])
    yield "torn and nothing else right", 1, sheet([record(0, 255, 255, 1, b"\xff" * 4, 9, 9, (9, 9), 9)]) + b"a"


WRITTEN = (kinds_accepted, limits_accepted, figures_accepted, labels_accepted, torn_short, torn_counts, torn_header,
           kind_cases, parts_cases, links_cases, walk_cases, decimal_cases, unit_cases, size_cases, flag_cases,
           label_place_cases, label_bytes_cases, label_where_none_may_be, header_like_a_record, equal_names,
           conditions_alone, conditions_in_pairs, conditions_in_company, one_record_in_company)


# ---- grown and changed sheets: the number is what the reading gives ----

class Dice:
    """Numbers from a seed. Not Python's own, whose draws may change from one version to the next."""

    def __init__(self, seed):
        self.state = seed

    def below(self, n):
        self.state = (self.state * 6364136223846793005 + 1442695040888963407) % 2 ** 64
        return (self.state >> 33) % n

    def between(self, low, high):
        return low + self.below(high - low + 1)

    def one_of(self, choices):
        return choices[self.below(len(choices))]


def grown_leaf(dice):
    kind = dice.between(1, 31)
    if kind in DECIMALS:
        precision = dice.between(1, DECIMALS[kind])
        return Type(kind, precision, dice.between(precision - 127, precision))
    zone = dice.one_of([None, b"", b"UTC", b"+02:00"]) if kind == TIMESTAMP else None
    size = dice.one_of([0, 7, 2 ** 31 - 1]) if kind in SIZED else 0
    return Type(kind, dice.below(UNITS.get(kind, 1)), size=size, zone=zone)


def grown_names(dice, count):
    """Different names, as many as asked, in an order that is drawn."""
    names, left = [], [b"", b"a", b"b", b"count", b"loose", b"\0"]
    for _ in range(count):
        names.append(left.pop(dice.below(len(left))))
    return names


def grown_type(dice, depth):
    if depth == 0 or dice.below(5) < 2:
        return grown_leaf(dice)
    kind = dice.between(LIST, RUN_ENDS)
    count = PARTS[kind] if kind in PARTS else dice.below(5)
    fielded = kind in FIELDED
    parts = [Field(grown_type(dice, depth - 1), name if fielded else b"", fielded and dice.below(2) == 1)
             for name in grown_names(dice, count)]
    size = dice.below(100) if kind in SIZED else 0
    return Type(kind, size=size, is_sorted=kind == MAP and dice.below(2) == 1, parts=parts)


def grown(dice):
    return encode([grown_type(dice, 3) for _ in range(dice.between(1, 4))])


def grown_cases(dice):
    for k in range(30):
        yield f"grown {k}", grown(dice)


def one_byte_changed(dice, s):
    """A byte of `s` changed by a bit, by one, or to any value; headers are spared, since they are torn each time."""
    at = dice.between(16, len(s) - 1)
    by = dice.one_of([1, 255, dice.between(1, 255)])
    value = dice.one_of([s[at] ^ (1 << dice.below(8)), (s[at] + by) % 256])
    return s[:at] + bytes([value]) + s[at + 1:], f"byte {at} from {s[at]} to {value}"


def changed_cases(dice):
    for k in range(150):
        ground = sample() if k % 4 == 0 else grown(dice)
        once, what = one_byte_changed(dice, ground)
        yield f"changed {k}: {what}", once
        if k % 4 == 1:
            twice, more = one_byte_changed(dice, once)
            yield f"changed {k}: {what}, {more}", twice


# ---- all of them ----

def all_cases():
    cases = []
    for group in WRITTEN:
        for what, number, s in group():
            if refusal(s) != number:
                sys.exit(f"{group.__name__}: {what}: written {number}, read {refusal(s)}")
            cases.append((what, number, s))
    dice = Dice(SEED)
    for what, s in [*grown_cases(dice), *changed_cases(dice)]:
        cases.append((what, refusal(s), s))
    for what, number, s in cases:
        if (number == 0) != respelled(s):
            sys.exit(f"{what}: number {number}, but respelled is {respelled(s)}")
    return cases


def check_cover(cases):
    """Stops where the list lacks something that it is there for."""
    good = [s for _, number, s in cases if number == 0]
    kinds = {r[0] for s in good for r in heads(s)[1:]}
    wanted = {
        "300 sheets": len(cases) >= 300,
        "every kind accepted": kinds == set(range(1, 39)),
        "every number": {number for _, number, _ in cases} == set(range(6)),
        "n = 1 and n = 1024": {1, MOST_RECORDS} <= {u16(s, 0) for s in good},
        "m = 16384": MOST_LABELS in {u16(s, 2) for s in good},
        "no input and 15 bytes": {0, 15} <= {len(s) for _, _, s in cases},
        "labels of cases that differ": len({what for what, _, _ in cases}) == len(cases),
    }
    lacking = [what for what, there in wanted.items() if not there]
    if lacking:
        sys.exit(f"the list lacks: {', '.join(lacking)}")


def entry(number, s):
    n, m = (u16(s, 0), u16(s, 2)) if number == 0 else (0, 0)
    return (bytes([number, 0]) + n.to_bytes(2, "little") + m.to_bytes(2, "little") + bytes(2)
            + len(s).to_bytes(4, "little") + s)


def main():
    sys.setrecursionlimit(10000)
    cases = all_cases()
    check_cover(cases)
    if sys.argv[1:] == ["--list"]:
        for k, (what, number, _) in enumerate(cases):
            print(f"{k} {number} {what}")
    elif sys.argv[1:] == ["--counts"]:
        for wanted in range(6):
            print(f"{wanted}: {sum(number == wanted for _, number, _ in cases)}")
        print(f"all: {len(cases)}")
    elif not sys.argv[1:]:
        for _, number, s in cases:
            sys.stdout.buffer.write(entry(number, s))
    else:
        sys.exit("usage: make_sheets.py [--list | --counts]")


if __name__ == "__main__":
    main()
