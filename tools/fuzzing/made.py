"""Files and scripts, made and mutated by the numbers of a random source."""
import oracle

try:
    import sqlite3
except ImportError:
    sqlite3 = None

NAMES = [b"t", b"u", b"Table_2", b"x", b"_", b"w$1", b"a\xc3\xa9", b"\xff\x80", b"long" * 9, b"rowid", b"integer", b"T3", b"t33", b"k" * 90]
BLANKS = [b" ", b"\n", b"\t", b" \r\f ", b"/* c */", b"-- c\n", b"/*/*/", b"/**/", b" -- \xc3\xa9;,\n"]
TYPES = [b"", b"", b" INTEGER", b" text", b" double precision", b" VARYING x y"]


# ---- files

def text_of(rng, name):
    """The text of a table with a few columns, with blanks and comments at any place."""
    columns = [case(rng, column) + rng.choice(TYPES) for column in rng.sample(NAMES + [b"c%d" % at for at in range(9)], rng.randint(1, 5))]
    blank = lambda: rng.choice(BLANKS) if rng.random() < 0.2 else b""
    body = b",".join(blank() + column + blank() for column in columns)
    return b"CREATE TABLE " + blank() + name + blank() + b"(" + body + b")" + blank()


def scatter(rng, page, usable, cells):
    """Puts the cells apart and in any order on page 1, with free blocks and fragments between them."""
    spare, at, last, blocks, fragments = usable - 108 - 2 * len(cells) - sum(map(len, cells)), usable, 101, [], 0
    page[108 + 2 * len(cells):usable] = rng.randbytes(usable - 108 - 2 * len(cells))
    for place in rng.sample(range(len(cells)), len(cells)):
        gap = rng.choice([0, 0, rng.randint(0, min(spare, 3)), rng.randint(0, spare)])
        gap = gap if gap > 3 or fragments + gap <= 60 else 0
        blocks += [(at - gap, gap)] if gap > 3 else []
        fragments += gap if gap < 4 else 0
        spare -= gap
        at -= gap + len(cells[place])
        page[at:at + len(cells[place])] = cells[place]
        page[108 + 2 * place:110 + 2 * place] = at.to_bytes(2, "big")
    page[101:103] = bytes(2)
    for block, gap in reversed(blocks):
        page[last:last + 2] = block.to_bytes(2, "big")
        page[block:block + 4] = bytes(2) + gap.to_bytes(2, "big")
        last = block
    page[105:107] = at.to_bytes(2, "big")
    page[107] = fragments


def put_longer(rng, value):
    """A varint in a longer form, now and then."""
    return b"\x80" * rng.choice([0, 0, 0, 1, 2]) + oracle.put_varint(value)


def longer_cell(rng, row):
    """A row's cell whose numbers are in longer forms than they need."""
    texts = [13 + 2 * len(text) for text in (row.name, row.owner, row.text)]
    kind, width = rng.choice([(1, 1), (2, 2), (3, 3), (4, 4), (5, 6), (6, 8)])
    types = b"".join(put_longer(rng, kind) for kind in [23, texts[0], texts[1], kind, texts[2]])
    size = rng.choice([1, 2, 3])
    record = b"\x80" * (size - 1) + bytes([size + len(types)])
    record += types + b"table" + row.name + row.owner + row.root.to_bytes(width, "big") + row.text
    return put_longer(rng, len(record)) + put_longer(rng, row.rowid) + record


def built(rng, longer=False):
    """A sound file of tables without rows, made here, in which pages that are no table's are noise."""
    size = rng.choice([512, 512, 1024, 1024, 2048, 4096, 4096, 8192, 16384, 32768, 65536])
    usable = size - rng.choice([0, 0, 0, 0, 8, 32, 31 if size == 512 else 255])
    pages = rng.randint(2, 12 if size < 8192 else 6)
    roots = rng.sample(range(2, pages + 1), rng.randint(0, pages - 1))
    rows, rowid = [], 0
    for root, name in zip(roots, rng.sample(NAMES, len(roots))):
        rowid += rng.choice([1, 1, 1, 100, 20000, 2 ** 24])
        rows.append(oracle.Row(rowid, case(rng, name), case(rng, name), root, text_of(rng, name)))
    while not oracle.write_first(bytes(size), usable, rows):
        rows.pop()
    counter = rng.choice([0, 1, 7, 2 ** 32 - 1]).to_bytes(4, "big")
    versions = counter if rng.random() < 0.8 else b"\0\0\0\5"
    header = b"SQLite format 3\0" + (size % 65535).to_bytes(2, "big") + b"\1\1" + bytes([size - usable]) + b"\x40\x20\x20" + counter
    header += pages.to_bytes(4, "big") + bytes(8) + rng.choice([0, 9, 2 ** 32 - 1]).to_bytes(4, "big")
    header += rng.choice([0, 1, 2, 3, 4, 4, 4]).to_bytes(4, "big") + bytes(11) + rng.choice(b"\0\1\1\1").to_bytes(1, "big")
    header += bytes(12) + bytes(20) + versions + b"\0\x2e\x83\x40"
    page = bytearray(oracle.write_first(header + bytes(size - 100), usable, rows))
    if rows and rng.random() < 0.5:
        cells = [longer_cell(rng, row) if longer else row.cell() for row in rows]
        if 108 + 2 * len(cells) + sum(map(len, cells)) <= usable:
            scatter(rng, page, usable, cells)
    data = bytes(page)
    for number in range(2, pages + 1):
        empty = b"\x0d\0\0\0\0" + (usable % 65536).to_bytes(2, "big") + b"\0"
        data += empty.ljust(size, b"\0") if number in roots else rng.randbytes(size)
    return data


def by_sqlite(room):
    """Files that sqlite3 made, of which some are served."""
    some = "CREATE TABLE t(a INTEGER, b TEXT); CREATE TABLE u(x, \u00e9 y z /* c */);"
    recipes = [f"PRAGMA page_size={size}; {some}" for size in (512, 1024, 4096, 65536)]
    recipes += [some + more for more in (
        "INSERT INTO t VALUES(1, 2)", "CREATE INDEX i ON t(a)", "CREATE VIEW v AS SELECT a FROM t", "CREATE TABLE w(a PRIMARY KEY, b)",
        "CREATE TRIGGER r AFTER INSERT ON t BEGIN SELECT 1; END", "CREATE TABLE w(a PRIMARY KEY) WITHOUT ROWID", "DROP TABLE u",
        "CREATE TABLE w(a DEFAULT 1)", 'CREATE TABLE "quoted"(a)', "CREATE TABLE w(a INTEGER PRIMARY KEY AUTOINCREMENT)",
        "DROP TABLE t; VACUUM", "DROP TABLE t; DROP TABLE u; VACUUM", "PRAGMA journal_mode=wal", "PRAGMA user_version=77",
        "ALTER TABLE t ADD COLUMN c", "ALTER TABLE t ADD COLUMN c DEFAULT 5", "CREATE TABLE w(a VARCHAR(10))", "ANALYZE")]
    recipes += [f"PRAGMA {first}; {some}" for first in ("auto_vacuum=1", "encoding='UTF-16le'", "legacy_file_format=1", "page_size=8192")]
    recipes += ["PRAGMA page_size=512;" + "".join(f"CREATE TABLE t{at}(a{at});" for at in range(count)) for count in (5, 30)]
    recipes += ["CREATE TABLE t(" + ",".join(f"c{at}" for at in range(count)) + ")" for count in (300, 1900)]
    recipes += ["PRAGMA page_size=65536; CREATE TABLE t(" + ",".join(f"c{at}" for at in range(count)) + ")" for count in (1999, 2000)]
    files = []
    for at, recipe in enumerate(recipes):
        name = f"{room}/made{at}"
        database = sqlite3.connect(name)
        database.executescript("PRAGMA synchronous=off;" + recipe)
        database.close()
        with open(name, "rb") as file:
            files.append(file.read())
    return files


def mutated_file(rng, data):
    out = bytearray(data)
    for _ in range(rng.choice([1, 1, 1, 2, 4])):
        kind, at = rng.randrange(10), rng.randrange(len(out) or 1)
        first = rng.randrange(min(len(out), oracle.number(out, 16, 2) or 512) or 1)
        cells = [oracle.number(out, place, 2) for place in range(108, 108 + 2 * min(oracle.number(out, 103, 2), 20), 2)]
        if kind == 0:
            out[at:at + 1] = rng.randbytes(1)
        elif kind == 1:
            out[first:first + 1] = rng.choice([rng.randbytes(1), bytes([out[first] ^ 1 << rng.randrange(8)]) if out else b""])
        elif kind == 2:
            out[:] = out[:rng.choice([at, first, 100, 108, len(out) - 1])]
        elif kind == 3:
            out += rng.choice([rng.randbytes(1), bytes(512), rng.randbytes(rng.randrange(5000)), out[:4096]])
        elif kind == 4:
            place = rng.choice([16, 18, 19, 20, 21, 24, 28, 32, 36, 40, 44, 48, 52, 56, 60, 64, 92, 96, 100, 101, 103, 105, 107])
            width = 2 if place in (16, 101, 103, 105) else 1 if place in (18, 19, 20, 21, 100, 107) else 4
            out[place:place + width] = (rng.choice([0, 1, 2, 3, 4, 5, 13, 32, 255, 2 ** 31, 2 ** 32 - 1, rng.randrange(70000)]) % 256 ** width).to_bytes(width, "big")
        elif kind == 5 and cells:
            place = 108 + 2 * rng.randrange(len(cells))
            out[place:place + 2] = (rng.choice([rng.choice(cells), rng.choice(cells) + rng.randint(-9, 9), first]) % 65536).to_bytes(2, "big")
        elif kind == 6 and cells:
            place = rng.choice(cells) + rng.randrange(12)
            out[place:place + 1] = rng.choice([b"\x80", b"\xff", b"\0", b"\x81", bytes([(out[place] + 1) % 256 if place < len(out) else 0])])
        elif kind == 7:
            old = rng.choice([b"table", b"CREATE", b"TABLE", b",", b"(", b")", b" ", b"t", b"a"])
            new = rng.choice([b"index", b"sqlite_", b"create", b"\0", b"'", b",", b"(", b"/*", b"--", b"A", b"7"])[:len(old)]
            out[:] = out.replace(old, new.ljust(len(old)), rng.randint(1, 3))
        elif kind == 8:
            width, other = rng.choice([1, 2, 4, 512]), rng.randrange(len(out) or 1)
            out[at:at + width], out[other:other + width] = out[other:other + width], out[at:at + width]
        elif kind == 9 and cells:
            one, two = 108 + 2 * rng.randrange(len(cells)), 108 + 2 * rng.randrange(len(cells))
            out[one:one + 2], out[two:two + 2] = out[two:two + 2], out[one:one + 2]
    return bytes(out)


# ---- scripts

def case(rng, word):
    return rng.choice([word, word, word.lower(), word.upper(), word.swapcase()])


def spelled(rng, data):
    """A script of commands on tables and columns that are there or not."""
    served = oracle.read_file(data)
    there = [row.name for row in served[3]] if served else [b"t", b"u"]
    columns = [column for row in served[3] for column in oracle.read_table(row.text)[1]] if served else [b"a", b"b"]
    out, odd = b"", rng.random() < 0.1
    for _ in range(rng.choice([0, 1, 1, 2, 3, 5, 12, 40])):
        table = rng.choice(there or NAMES) if rng.random() < 0.8 else rng.choice(NAMES)
        column = rng.choice(columns or NAMES) if rng.random() < 0.3 else rng.choice(NAMES + [b"n%d" % rng.randrange(99)])
        words = [b"ALTER", b"TABLE", table, b"ADD"] + [b"COLUMN"] * rng.randrange(2) + [column]
        if odd and rng.random() < 0.2:
            words.insert(rng.randrange(7), rng.choice([b"key", b"'x'", b"7", b"DROP", b",", b'"t"', b"\0", b"x'0'", b"COLUMN", b"rebuild"]))
        for word in words:
            out += case(rng, word) + (rng.choice(BLANKS) if rng.random() < 0.3 else b" ")
        out += b";" * rng.choice([1, 1, 1, 2]) + rng.choice([b"", b"", b"\n", b"-- x\n;", b"/* ; */;"])
    return out.rstrip(b"; ") if rng.random() < 0.2 else out


def script_of(rng, turn, data):
    kind = rng.random()
    if turn % 150 == 149:
        add = rng.choice([b"alter table t add a;", b"alter table zz add a;", b"alter table t add a -- x\n;"])
        return rng.choice([b" " * (2 ** 20 + rng.randint(-1, 1)), add * rng.choice([9999, 10000, 10001]), b"/*" * 2 ** 18, b"a" * 2 ** 19,
                           b"ALTER TABLE t ADD " + b"c" * rng.choice([3000, 70000, 900000]), b";" * 2 ** 19, rng.randbytes(2 ** 16)])
    if kind < 0.7:
        return spelled(rng, data)
    if kind < 0.95:
        out = bytearray(spelled(rng, data))
        for _ in range(rng.randint(1, 3)):
            at = rng.randrange(len(out) + 1)
            out[at:at + rng.randrange(3)] = rng.choice([b"", rng.randbytes(1), b";", b" ", b"/*", b"*/", b"--", b"\n", b"'", b"x", b"$", b"1", b"(", out[:at]])
        return bytes(out)
    return rng.choice([rng.randbytes(rng.randrange(99)), bytes(rng.choices(b"aAlterTABDd;;  \n/*-'\"\x00\xff", k=rng.randrange(99)))])
