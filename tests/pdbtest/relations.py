"""The reader of relations: from the format's rules, what does not agree between the parts of a file."""

import struct

from pdbtest import records
from pdbtest.msf import DEBUG, EOF, IDS, INFORMATION, TYPES, Refused, word
from pdbtest.roles import NO_STREAM, ROLES, role_numbers
from pdbtest.tables import Leaf, item_places, kind_at, table_of

NO_TYPE = (0, 0xFFFF)  # indexes that stand for no type, where a record may lack one
NO_END = 0xFFFFFFFF  # the end of the types where there is no table of them

# Where the indexes stand to which a record of a kind refers: of types, and those that may be none.
REFERENCES = {
    **dict.fromkeys([0x1504, 0x1004, 0x1505, 0x1005, 0x1519, 0x1609], ([], [6, 10, 14])),
    **dict.fromkeys([0x1506, 0x1006], ([6], [])),
    **dict.fromkeys([0x1507, 0x1007], ([6, 10], [])),
    **dict.fromkeys([0x1503, 0x1003, 0x1516], ([2, 6], [])),
    **dict.fromkeys([0x150D, 0x1405, 0x150E, 0x1406, 0x1510, 0x1408, 0x1512, 0x140D, 0x150F, 0x1407], ([4], [])),
    **dict.fromkeys([0x1511, 0x140B, 0x1400, 0x151A, 0x1409], ([4], [])),
    **dict.fromkeys([0x1401, 0x1402], ([4, 8], [])),
    Leaf.LF_POINTER: ([2], []),
    Leaf.LF_PROCEDURE: ([10], [2]),
    Leaf.LF_MFUNCTION: ([2, 6, 18], [10]),
    Leaf.LF_MODIFIER: ([2], []),
    Leaf.LF_BITFIELD: ([2], []),
}
INTRO, PURE_INTRO = 4, 6  # properties of a method that has an offset


def listed(record, begin):
    """The indexes of a list of four bytes each, which begins at a place."""
    return [word(record, at) for at in range(begin, len(record) - 3, 4)]


def of_record(record):
    """The indexes to which a record refers, or a field that is no list."""
    kind = kind_at(record, 0)
    sure, maybe = REFERENCES.get(kind, ([], []))
    found = [word(record, at) for at in sure]
    found += [index for index in (word(record, at) for at in maybe) if index not in NO_TYPE]
    if kind == Leaf.LF_POINTER and word(record, 6) >> 5 & 7 in (2, 3):
        found.append(word(record, 10))
    return found


def of_fields(record):
    """The indexes to which a list of fields refers."""
    cursor, found = records.Cursor(record), []
    while cursor.at < len(record):
        start = cursor.at
        cursor.leaf = cursor.number(2)
        if cursor.leaf == Leaf.LF_INDEX:
            cursor.skip(2)
            found.append(cursor.number(4))
        else:
            cursor.read(records.TYPES[cursor.leaf])
            found += of_record(record[start : cursor.at])
        cursor.padding()
    return found


def of_methods(record):
    """The types of the methods of a list."""
    at, found = 2, []
    while at < len(record):
        found.append(word(record, at + 4))
        at += 12 if record[at] >> 2 & 7 in (INTRO, PURE_INTRO) else 8
    return found


def of_type(record):
    """The indexes to which the record of a type refers."""
    kind = kind_at(record, 0)
    if kind == Leaf.LF_FIELDLIST:
        return of_fields(record)
    if kind == Leaf.LF_METHODLIST:
        return of_methods(record)
    if kind == Leaf.LF_ARGLIST:
        return listed(record, 6)[: word(record, 2)]
    return of_record(record)


def of_id(record):
    """The ids and the types to which the record of an id refers."""
    kind = kind_at(record, 0)
    if kind == Leaf.LF_FUNC_ID:
        return [word(record, 2)], [word(record, 6)]
    if kind == Leaf.LF_MFUNC_ID:
        return [], [word(record, 2), word(record, 6)]
    if kind == Leaf.LF_BUILDINFO:
        return listed(record, 4)[: kind_at(record, 2)], []
    if kind == Leaf.LF_SUBSTR_LIST:
        return listed(record, 6)[: word(record, 2)], []
    if kind == Leaf.LF_STRING_ID:
        return [word(record, 2)], []
    return ([word(record, 6)] if kind == Leaf.LF_UDT_SRC_LINE else []), [word(record, 2)]


# What can be inconsistent: the codes, in the order of their numbers from 1 on, and what each text says, as a pattern.
DECIMAL, HEXADECIMAL = r"\d+", r"0x[0-9a-f]+"
INCONSISTENCIES = {
    "DIRECTORY-TOO-LARGE": "the directory is larger than the file",
    "STREAMS-TOO-LARGE": "the streams together are larger than the file",
    "OUT-OF-ORDER": "the records are out of order",
    "PAGE-SHARED": f"page {DECIMAL} is used twice",
    "PAGE-FREE": f"page {DECIMAL} is in use and marked as free",
    "STREAM-MISSING": f"stream {DECIMAL} has a name or a role and is missing",
    "DEBUG-SIZES": "the parts of stream 3 do not add up to its size",
    "REFERENCE-NOT-BELOW": f"a reference to index {HEXADECIMAL} is not below the record's own",
    "RECORD-UNALIGNED": "the record does not end at a multiple of four bytes",
    "KIND-NOT-READ": f"records of kind {HEXADECIMAL} are not read",
    "HASH-COUNT": f"there are {DECIMAL} hash values for other records",
    "HASH-TOO-LARGE": f"hash value {DECIMAL} is not below the number of buckets",
    "INDEX-OFFSET": f"the place of index {HEXADECIMAL} is not that of its record",
    "BUCKETS-CUT": "the string table ends before its buckets do",
    "NAME-OFFSET": f"no name begins at offset {DECIMAL}",
    "NAME-COUNT": f"the buckets do not hold {DECIMAL} names",
    "SECTIONS-OVERLAP": "the section begins below the end of the one before it",
    "FREE-PAGE-MAP": f"the number of the free page map is {DECIMAL}, and neither 1 nor 2",
    "PAGE-COUNT": f"the file has fewer than the {DECIMAL} pages that are in use",
    "UNKNOWN-VERSION": f"version {DECIMAL} is not known",
    "UNKNOWN-MACHINE": f"machine {HEXADECIMAL} is not known",
    "NAMED-STREAM-COUNT": f"the table of names does not have {DECIMAL} streams",
    "RECORD-BYTES": f"the records do not end where the number {DECIMAL} in the header says",
    "HASH-SIZE": f"no table has hashes of this size or as many buckets: {DECIMAL}",
    "NO-HASH-STREAM": "the records have no hash stream",
    "HASH-PART": f"a part of {DECIMAL} bytes does not fit the hash stream",
    "NAME-UNREACHED": f"the hash of the name at offset {DECIMAL} does not lead to its bucket",
    "MODULE-CUT": "the entry of the module ends behind the list of modules",
    "MODULE-SIZES": f"a module takes more bytes than there are in stream {DECIMAL}",
    "SYMBOL-HASH-VERSION": f"no hash table of symbols has signature or version {HEXADECIMAL}",
    "SYMBOL-HASH-SIZES": "the hash table of symbols does not have the size it says",
    "PUBLIC-SIZES": "the parts of the publics do not add up to their stream",
    "SYMBOL-CUT": "the record of the symbol ends behind its stream",
}

# What files of known tools have, too.
WARNINGS = {"PAGE-FREE", "RECORD-UNALIGNED", "KIND-NOT-READ", "UNKNOWN-MACHINE", "NO-HASH-STREAM"}

# The versions of stream 1, of stream 3 and of tables, as LLVM's RawConstants.h lists them by their dates, and the
# machines of the Portable Executable specification and of winnt.h.
VERSIONS = {
    INFORMATION: {
        19941610, 19950623, 19950814, 19960307, 19970604, 19990604, 20000404, 20030901, 20091201, 20140508,
    },
    DEBUG: {930803, 19960307, 19970606, 19990903, 20091201},
    TYPES: {19950410, 19951122, 19961031, 19990903, 20040203},
}  # fmt: skip
MACHINES = {
    0, 0x13, 0x14C, 0x162, 0x166, 0x168, 0x169, 0x184, 0x1A2, 0x1A3, 0x1A4, 0x1A6, 0x1A8, 0x1C0, 0x1C2, 0x1C4, 0x1D3, 0x1F0,
    0x1F1, 0x200, 0x266, 0x284, 0x366, 0x466, 0x520, 0xCEF, 0xEBC, 0x3A64, 0x5032, 0x5064, 0x5128, 0x6232, 0x6264, 0x8664,
    0x9041, 0xA641, 0xA64E, 0xAA64, 0xC0EE,
}  # fmt: skip
BUCKETS = range(0x1000, 0x40001)  # how many a table may have
BITS = 0xFFFFFFFF


def told(found, is_every):
    """What is told of what was found of one kind: everything; or the first error, or where there is none the first
    warning."""
    return found if is_every else sorted(found, key=lambda it: it[1] in WARNINGS)[:1]


def older_hash(name):
    """The hash of a name by version 1 of the string table (LHashPbCb)."""
    mixed = 0
    for start in range(0, len(name) - 3, 4):
        mixed ^= word(name, start)
    rest = name[len(name) // 4 * 4 :]
    if len(rest) > 1:
        mixed ^= int.from_bytes(rest[:2], "little")
    if len(rest) % 2:
        mixed ^= rest[-1]
    mixed |= 0x20202020
    mixed ^= mixed >> 11
    return mixed ^ mixed >> 16


def newer_hash(name):
    """The hash of a name by version 2 of the string table."""
    mixed, whole = 0xB170A1BF, len(name) // 4 * 4
    for number in [*(word(name, start) for start in range(0, whole, 4)), *name[whole:]]:
        mixed = mixed + number & BITS
        mixed = mixed + (mixed << 10) & BITS
        mixed ^= mixed >> 6
    return mixed * 1664525 + 1013904223 & BITS


class Relations:
    """What is inconsistent in a file whose parts were read: lists of the part, the code, the stream, the index and the
    byte."""

    def __init__(self, reading, data):
        self.data, self.msf, self.streams, self.sizes = data, reading.msf, reading.streams, reading.sizes
        self.count = reading.count if reading.sizes or reading.count < NO_STREAM else 0
        self.groups = []
        self.check_header()
        self.check_pages()
        self.check_types()
        self.check_table("TYPES", TYPES)
        self.check_hashes("TYPES", TYPES)
        self.check_ids()
        self.check_table("IDS", IDS)
        self.check_hashes("IDS", IDS)
        self.check_information()
        self.check_names()
        self.check_roles()

    def begin(self):
        """Begins another list."""
        self.groups.append([])

    def add(self, part, code, stream=None, index=None, byte=None):
        """Adds to the last list."""
        self.groups[-1].append((part, code, stream, index, byte))

    def owners(self):
        """Each page of the container and of the streams, with its stream and the byte with which it begins."""
        yield from ((page, None, None) for page in self.msf.location)
        yield from ((page, None, None) for page in self.msf.directory_pages)
        for number in range(self.count):
            try:
                pages, _ = self.msf.stream(number)
            except Refused:
                continue
            yield from ((page, number, place * self.msf.page_size) for place, page in enumerate(pages))

    def is_free(self, page):
        """Whether the map of free pages that is in use has the bit of a page set."""
        active, size = word(self.data, 36), self.msf.page_size
        at = (active + page // 8 // size * size) * size + page // 8 % size
        return active in (1, 2) and at < len(self.data) and self.data[at] >> page % 8 & 1

    def check_header(self):
        """The number of the free page map, and how many pages are in use."""
        self.begin()
        if word(self.data, 36) not in (1, 2):
            self.add("HEADER", "FREE-PAGE-MAP")
        if word(self.data, 40) > -(-len(self.data) // self.msf.page_size):
            self.add("HEADER", "PAGE-COUNT")

    def check_pages(self):
        """Each page has one owner, and none of a stream is free."""
        self.begin()
        size, seen, owners = self.msf.page_size, set(), list(self.owners())
        for page, stream, byte in owners:
            is_reserved = page == 0 or page % size in (1, 2)
            if page < -(-len(self.data) // size) and (is_reserved or page in seen):
                self.add("STREAM", "PAGE-SHARED", stream, None, byte)
            seen.add(page)
        for page, stream, byte in owners:
            if stream and self.is_free(page):
                self.add("STREAM", "PAGE-FREE", stream, None, byte)

    def table(self, number):
        """The bytes of a table, and where its items begin and its indexes begin and end."""
        stream = self.streams.get(number)
        try:
            return (stream, *table_of(stream)) if stream else None
        except Refused:
            return None

    def check_items(self, part, number, wrong):
        """The references, the kind and the size of each record of a table."""
        self.begin()
        table = self.table(number)
        if not table:
            return
        stream, begin, index, _ = table
        try:
            for start, end in item_places(stream, begin):
                if code := wrong(index, stream[start:end]):
                    self.add(part, code, number, index, start - 2)
                if (end - start + 2) % 4:
                    self.add(part, "RECORD-UNALIGNED", number, index, start - 2)
                if index == 0xFFFFFFFF:
                    return
                index += 1
        except Refused:
            pass

    def check_types(self):
        def wrong(index, record):
            kind = kind_at(record, 0)
            if kind != Leaf.LF_FIELDLIST and kind not in records.TYPES:
                return "KIND-NOT-READ"
            is_read = records.type_fault(record)[0] is None
            return "REFERENCE-NOT-BELOW" if is_read and any(it >= index for it in of_type(record)) else None

        self.check_items("TYPES", TYPES, wrong)

    def check_ids(self):
        types = self.table(TYPES)
        empty = 0 if self.streams.get(TYPES) == b"" else NO_END
        end = types[3] if types else empty

        def wrong(index, record):
            if kind_at(record, 0) not in records.IDS:
                return "KIND-NOT-READ"
            if records.id_fault(record) is not None:
                return None
            ids, named = of_id(record)
            is_wrong = any(it >= index for it in ids) or any(it >= end for it in named)
            return "REFERENCE-NOT-BELOW" if is_wrong else None

        self.check_items("IDS", IDS, wrong)

    def records_end(self, stream, begin, count):
        """Where the last of so many records ends; None if one is missing."""
        end = begin
        try:
            for _, (_, end) in zip(range(count), item_places(stream, begin)):
                count -= 1
        except Refused:
            pass
        return None if count else end

    def check_table(self, part, number):
        """The header of a table: the version, the records, and where the hashes are."""
        self.begin()
        table = self.table(number)
        if not table:
            return
        stream, begin, minimum, maximum = table

        def check(byte, is_wrong, code):
            if is_wrong:
                self.add(part, code, number, None, byte)

        hashed = kind_at(stream, 20)
        is_there = hashed != NO_STREAM
        size = self.size_of(hashed) if is_there else None
        parts = [struct.unpack_from("<iI", stream, at) for at in (32, 40, 48)]
        outside = [size is not None and (at < 0 or at + many > size) for at, many in parts]
        places = parts[1][1]
        check(0, word(stream, 0) not in VERSIONS[TYPES], "UNKNOWN-VERSION")
        check(12, self.records_end(stream, begin, maximum - minimum) not in (None, len(stream)), "RECORD-BYTES")
        check(16, begin + word(stream, 16) != len(stream), "RECORD-BYTES")
        check(20, is_there and self.is_missing(hashed), "STREAM-MISSING")
        check(20, not is_there and maximum > minimum, "NO-HASH-STREAM")
        check(24, word(stream, 24) != 4, "HASH-SIZE")
        check(28, word(stream, 28) not in BUCKETS, "HASH-SIZE")
        check(32, outside[0], "HASH-PART")
        check(40, outside[1] or is_there and (places % 8 or not places and maximum > minimum), "HASH-PART")
        check(48, outside[2], "HASH-PART")

    def check_hashes(self, part, number):
        """The hash values of a table, and the places of its records."""
        self.begin()
        table = self.table(number)
        if not table:
            return
        stream, begin, minimum, maximum = table
        hashed = kind_at(stream, 20)
        hashes = self.streams.get(hashed) if hashed != NO_STREAM else None
        if hashes is None:
            return
        buckets, at, size, place, length = *struct.unpack_from("<IiI", stream, 28), *struct.unpack_from("<iI", stream, 40)
        values, offsets = (hashes[one : one + many] if one >= 0 else b"" for one, many in ((at, size), (place, length)))
        if len(values) != 4 * (maximum - minimum):
            self.add(part, "HASH-COUNT", hashed)
        for n in range(len(values) // 4):
            if word(values, 4 * n) >= buckets:
                self.add(part, "HASH-TOO-LARGE", hashed, minimum + n, max(at, 0) + 4 * n)
        starts = {}
        if len(offsets) >= 8:
            try:
                for index, (start, _) in zip(range(minimum, maximum), item_places(stream, begin)):
                    starts[index] = start
            except Refused:
                pass
        for n in range(len(offsets) // 8):
            index, offset = struct.unpack_from("<2I", offsets, 8 * n)
            if starts.get(index) != begin + offset + 2:
                self.add(part, "INDEX-OFFSET", hashed, index, max(place, 0) + 8 * n)

    def is_missing(self, number):
        """Whether the file has no stream of a number."""
        return number >= self.msf.count or number < len(self.sizes) and self.sizes[number] is None

    def size_of(self, number):
        """The size of a stream, None if the file has none of this number, or if its directory ends before the size or before
        a page number of an earlier stream."""
        is_known = not self.is_missing(number) and number < len(self.sizes)
        return self.sizes[number] if is_known and self.msf.starts[number] <= len(self.msf.directory) else None

    def check_information(self):
        """The version of stream 1, and how many streams have names."""
        self.begin()
        stream = self.streams.get(INFORMATION)
        if stream is None or len(stream) < 32:
            return
        if word(stream, 0) not in VERSIONS[INFORMATION]:
            self.add("NAMES", "UNKNOWN-VERSION", INFORMATION, None, 0)
        place = 32 + word(stream, 28)
        if place + 12 > len(stream) or place + 12 + 4 * word(stream, place + 8) > len(stream):
            return
        bits = int.from_bytes(stream[place + 12 : place + 12 + 4 * word(stream, place + 8)], "little")
        if bin(bits).count("1") != word(stream, place):
            self.add("NAMES", "NAMED-STREAM-COUNT", INFORMATION, None, place)

    def check_names(self):
        """The streams that have names, and the buckets of the string table."""
        self.begin()
        stream = self.streams.get(INFORMATION)
        if stream is None:
            return
        try:
            named = named_in(stream)
        except Refused:
            return
        for _, number in named:
            if number < NO_STREAM and self.is_missing(number):
                self.add("NAMES", "STREAM-MISSING", INFORMATION)
        self.begin()
        tables = [number for name, number in named if name == b"/names"]
        if tables and tables[0] < NO_STREAM and self.streams.get(tables[0]) is not None:
            self.check_buckets(tables[0], self.streams[tables[0]])

    def check_buckets(self, number, stream):
        """The offsets in the buckets of a string table, and their number."""

        def at(place):
            return int.from_bytes(stream[place : place + 4], "little")

        size = at(8)
        first, count = 16 + size, at(12 + size)
        if first + 4 * count + 4 > len(stream):
            self.add("STRING-TABLE", "BUCKETS-CUT", number, None, len(stream))
            return
        buckets = struct.unpack_from(f"<{count}I", stream, first)
        hash_of = older_hash if at(4) == 1 else newer_hash
        empty = [place for place, offset in enumerate(buckets) if not offset]
        last = empty[-1] if empty else -1  # the last that is empty before a place, if not the one of the round before
        before, taken = -1, 0
        for place, offset in enumerate(buckets):
            if not offset:
                before = place
            elif not (offset < size and not stream[11 + offset]):
                self.add("STRING-TABLE", "NAME-OFFSET", number, None, first + 4 * place)
            elif taken > size:
                self.add("STRING-TABLE", "NAME-UNREACHED", number, None, first + 4 * place)
            elif (end := stream.find(b"\0", 12 + offset, 12 + size)) >= 0:
                taken += end + 1 - 12 - offset
                home = hash_of(stream[12 + offset : end]) % count
                is_found = before < home if home <= place else before < 0 and last < home
                if not is_found:
                    self.add("STRING-TABLE", "NAME-UNREACHED", number, None, first + 4 * place)
        if at(first + 4 * count) != sum(map(bool, buckets)):
            self.add("STRING-TABLE", "NAME-COUNT", number, None, first + 4 * count)

    def check_roles(self):
        """The header of stream 3, the streams with a role, and the order of the sections."""
        self.begin()
        debug = self.streams.get(DEBUG)
        if not debug or len(debug) < 64 or word(debug, 0) != 0xFFFFFFFF:
            return
        if 64 + sum(struct.unpack_from("<5I", debug, 24)) + sum(struct.unpack_from("<2I", debug, 48)) != len(debug):
            self.add("ROLES", "DEBUG-SIZES", DEBUG)
        if word(debug, 4) not in VERSIONS[DEBUG]:
            self.add("ROLES", "UNKNOWN-VERSION", DEBUG, None, 4)
        if kind_at(debug, 58) not in MACHINES:
            self.add("ROLES", "UNKNOWN-MACHINE", DEBUG, None, 58)
        self.begin()
        try:
            roles = role_numbers(debug)
        except Refused:
            roles = None
        symbols = [kind_at(debug, at) for at in (12, 16, 20)]
        for number in symbols + [roles.get(role, NO_STREAM) for role in ROLES] if roles is not None else []:
            if number != NO_STREAM and self.is_missing(number):
                self.add("ROLES", "STREAM-MISSING", DEBUG)
        self.check_modules(debug)
        for number, check in zip(symbols, (self.check_hash_table, self.check_publics, self.check_symbols)):
            self.begin()
            stream = self.streams.get(number) if number != NO_STREAM else None
            if stream is not None:
                check(number, stream)
        if roles is None:
            return
        for part in ("SECTION-HEADERS", "ORIGINAL-SECTION-HEADERS"):
            number = roles.get(part.lower().replace("-", "_"))
            sections = self.streams.get(number)
            if sections is not None and len(sections) % 40 == 0:
                self.check_sections(part, number, sections)

    def check_modules(self, debug):
        """The entries of modules, of which the list is full, and the sizes of their streams: 64 bytes, two names that end
        with a NUL, and what is left to a multiple of four (LLVM's ModuleInfoHeader)."""
        self.begin()
        place, end, index = 64, min(64 + word(debug, 24), len(debug)), 0
        while place < end:
            middle = debug.find(b"\0", place + 64, end)
            last = debug.find(b"\0", middle + 1, end) if middle >= 0 else -1
            behind = (last + 4) // 4 * 4
            if last < 0 or behind > end:
                self.add("ROLES", "MODULE-CUT", DEBUG, index, place)
                return
            number = kind_at(debug, place + 34)
            if number != NO_STREAM and self.is_missing(number):
                self.add("ROLES", "STREAM-MISSING", DEBUG, index, place)
            elif number != NO_STREAM and (size := self.size_of(number)) is not None:
                if size < sum(struct.unpack_from("<3I", debug, place + 36)):
                    self.add("ROLES", "MODULE-SIZES", DEBUG, index, place)
            place, index = behind, index + 1

    def check_hash_table(self, number, table, byte=0):
        """A hash table of symbols, which begins at a byte of its stream: the header, and the sizes of the records, of
        eight bytes each, and of the buckets (LLVM's GSIHashHeader)."""
        if len(table) < 16:
            self.add("ROLES", "SYMBOL-HASH-SIZES", number, None, byte)
            return
        signature, version, records, buckets = struct.unpack_from("<4I", table)
        if signature != 0xFFFFFFFF:
            self.add("ROLES", "SYMBOL-HASH-VERSION", number, None, byte)
        if version != 0xEFFE0000 + 19990810:
            self.add("ROLES", "SYMBOL-HASH-VERSION", number, None, byte + 4)
        if records % 8 or len(table) != 16 + records + buckets:
            self.add("ROLES", "SYMBOL-HASH-SIZES", number, None, byte + 8)

    def check_publics(self, number, stream):
        """The header of the publics, and what follows it: a hash table, addresses, thunks and sections (LLVM's
        PublicsStreamHeader)."""
        if len(stream) < 28:
            self.add("ROLES", "PUBLIC-SIZES", number, None, 0)
            return
        hashes, addresses, thunks, _, _, _, sections = struct.unpack_from("<7I", stream)
        if len(stream) != 28 + hashes + addresses + 4 * thunks + 8 * sections:
            self.add("ROLES", "PUBLIC-SIZES", number, None, 0)
        self.check_hash_table(number, stream[28 : 28 + hashes], 28)

    def check_symbols(self, number, stream):
        """The records of symbols, each behind its size, which is that of its kind at least."""
        place = 0
        while place + 2 <= len(stream) and 2 <= (size := kind_at(stream, place)) <= len(stream) - place - 2:
            place += 2 + size
        if place < len(stream):
            self.add("ROLES", "SYMBOL-CUT", number, None, place)

    def check_sections(self, part, number, sections):
        """Sections in increasing order, none of which begins below the end of the one before it."""
        self.begin()
        least = 0
        for place, at in enumerate(range(0, len(sections), 40)):
            size, address = struct.unpack_from("<2I", sections, at + 8)
            if address < least:
                self.add(part, "SECTIONS-OVERLAP", number, place)
            least = address + size


def named_in(stream):
    """The names that stream 1 lists, each with the number of its stream."""
    if len(stream) < 32:
        raise Refused(EOF)
    size = word(stream, 28)
    place = 32 + size
    count = word(stream, place)
    word(stream, place + 4)
    place += 8
    for _ in range(2):
        place += 4 + 4 * word(stream, place)
    if place + 8 * count > len(stream):
        raise Refused(EOF)
    names, found = stream[32 : 32 + size], []
    for offset, number in struct.iter_unpack("<2I", stream[place : place + 8 * count]):
        end = names.find(b"\0", offset) if offset < len(names) else -1
        if end < 0:
            raise Refused(EOF)
        found.append((names[offset:end], number))
    return found
