"""What the program has to answer, written from docs/ and from SQLite's pages, and not from the program's sources."""
import re

KEYWORDS = set(b"""ABORT ACTION ADD AFTER ALL ALTER ALWAYS ANALYZE AND AS ASC ATTACH AUTOINCREMENT BEFORE BEGIN BETWEEN BY
CASCADE CASE CAST CHECK COLLATE COLUMN COMMIT CONFLICT CONSTRAINT CREATE CROSS CURRENT CURRENT_DATE CURRENT_TIME
CURRENT_TIMESTAMP DATABASE DEFAULT DEFERRABLE DEFERRED DELETE DESC DETACH DISTINCT DO DROP EACH ELSE END ESCAPE EXCEPT
EXCLUDE EXCLUSIVE EXISTS EXPLAIN FAIL FILTER FIRST FOLLOWING FOR FOREIGN FROM FULL GENERATED GLOB GROUP GROUPS HAVING IF
IGNORE IMMEDIATE IN INDEX INDEXED INITIALLY INNER INSERT INSTEAD INTERSECT INTO IS ISNULL JOIN KEY LAST LEFT LIKE LIMIT
MATCH MATERIALIZED NATURAL NO NOT NOTHING NOTNULL NULL NULLS OF OFFSET ON OR ORDER OTHERS OUTER OVER PARTITION PLAN PRAGMA
PRECEDING PRIMARY QUERY RAISE RANGE RECURSIVE REFERENCES REGEXP REINDEX RELEASE RENAME REPLACE RESTRICT RETURNING RIGHT
ROLLBACK ROW ROWS SAVEPOINT SELECT SET TABLE TEMP TEMPORARY THEN TIES TO TRANSACTION TRIGGER UNBOUNDED UNION UNIQUE UPDATE
USING VACUUM VALUES VIEW VIRTUAL WHEN WHERE WINDOW WITH WITHOUT REBUILD""".split())
assert len(KEYWORDS) == 148

TOKEN = re.compile(rb"(?:[ \t\n\f\r]+|--[^\n]*|/\*.*?(?:\*/|\Z))|([A-Za-z_\x80-\xff][A-Za-z0-9_$\x80-\xff]*|[(),;])", re.S)


def tokens(text):
    """The words and the four signs of a text with the places behind them; None where it has anything else."""
    at, found = 0, []
    while at < len(text):
        token = TOKEN.match(text, at)
        if not token:
            return None
        at = token.end()
        if token[1]:
            found.append((token[1], at))
    return found


def is_name(word):
    return word not in b"(),;" and word.upper() not in KEYWORDS


def read_script(text):
    """The commands of a script as pairs of a table and a column; None where it is not served."""
    found = tokens(text)
    if found is None:
        return None
    commands, words = [], []
    for word in [word for word, _ in found] + [b";"]:
        if word != b";":
            words.append(word)
            continue
        if words:
            if len(words) == 6 and words[4].upper() == b"COLUMN":
                del words[4]
            if len(words) != 5 or [words[0].upper(), words[1].upper(), words[3].upper()] != [b"ALTER", b"TABLE", b"ADD"]:
                return None
            if not is_name(words[2]) or not is_name(words[4]):
                return None
            commands.append((words[2], words[4]))
        words = []
    return commands if len(commands) <= 10000 else None


def read_table(text):
    """A table's name, its columns and the place behind the last one; None where its text is not served."""
    found = tokens(text)
    if found is None or len(found) < 6:
        return None
    words = [word for word, _ in found]
    if [words[0].upper(), words[1].upper(), words[3], words[-1]] != [b"CREATE", b"TABLE", b"(", b")"] or not is_name(words[2]):
        return None
    columns, first = [], True
    for word in words[4:-1]:
        if word == b",":
            if first:
                return None
            first = True
        elif not is_name(word):
            return None
        elif first:
            columns.append(word)
            first = False
    if first or len({column.lower() for column in columns}) < len(columns) or words[2].lower().startswith(b"sqlite_"):
        return None
    return words[2], columns, found[-2][1]


def number(data, at, count=4):
    return int.from_bytes(data[at:at + count], "big")


def varint(data, at):
    """A varint's number and the place behind it; None where the bytes end before it does."""
    value = 0
    for count, byte in enumerate(data[at:at + 9]):
        if count == 8:
            return value << 8 | byte, at + 9
        value = value << 7 | byte & 127
        if byte < 128:
            return value, at + count + 1
    return None


def put_varint(value):
    out = bytes([value & 127])
    while value := value >> 7:
        out = bytes([value & 127 | 128]) + out
    return out


class Row:
    """A row of the schema: its rowid, the two names, the root and the text."""

    def __init__(self, rowid, name, owner, root, text):
        self.rowid, self.name, self.owner, self.root, self.text = rowid, name, owner, root, text

    def record(self):
        root = self.root.to_bytes(1 if self.root < 128 else 2 if self.root < 32768 else 3, "big")
        texts = [13 + 2 * len(text) for text in (self.name, self.owner, self.text)]
        types = b"".join(put_varint(kind) for kind in [23, texts[0], texts[1], len(root), texts[2]])
        size = len(types) + 1 if len(types) < 127 else len(types) + 2
        return put_varint(size) + types + b"table" + self.name + self.owner + root + self.text

    def cell(self):
        record = self.record()
        return (put_varint(len(record)) + put_varint(self.rowid) + record).ljust(4, b"\0")


def read_row(rowid, record):
    found = varint(record, 0)
    if not found or found[0] > len(record):
        return None
    (size, at), types = found, []
    while at < size:
        found = varint(record[:size], at)
        if not found:
            return None
        types.append(found[0])
        at = found[1]
    widths = {1: 1, 2: 2, 3: 3, 4: 4, 5: 6, 6: 8, 8: 0, 9: 0}
    if at != size or len(types) != 5 or types[0] != 23 or types[3] not in widths:
        return None
    if any(kind < 13 or kind % 2 == 0 for kind in (types[1], types[2], types[4])):
        return None
    values = []
    for kind, length in zip(types, [widths[kind] if kind in widths else (kind - 13) // 2 for kind in types]):
        value = record[at:at + length]
        if len(value) < length:
            return None
        values.append(kind - 8 if kind in (8, 9) else int.from_bytes(value, "big", signed=True) if kind < 12 else value)
        at += length
    return Row(rowid, values[1], values[2], values[3], values[4]) if at == len(record) and values[0] == b"table" else None


def sizes(data):
    """Page size, usable size, page count, and whether the header gives the count."""
    size = 65536 if number(data, 16, 2) == 1 else number(data, 16, 2)
    given = number(data, 28) != 0 and number(data, 24) == number(data, 92)
    return size, size - data[20], number(data, 28) if given else len(data) // max(size, 1), given


def refusal(data):
    """The first restriction on header and length that the file breaks, or None."""
    if not data:
        return b"empty"
    if len(data) < 100 or data[:16] != b"SQLite format 3\0" or data[21:24] != b"\x40\x20\x20":
        return b"not-database"
    size, usable, count, given = sizes(data)
    if size < 512 or size & (size - 1) or usable < 480:
        return b"page-size"
    if data[18:20] != b"\1\1":
        return b"wal"
    if number(data, 52) or number(data, 64):
        return b"auto-vacuum"
    if number(data, 56) > 1:
        return b"encoding"
    if number(data, 44) > 4:
        return b"schema-format"
    if not count or len(data) < count * size or not given and len(data) % size:
        return b"size"
    return b"too-large" if count > 65536 or count * size > 2 ** 28 else None


def read_file(data):
    """Page size, usable size, page count and rows of a file that is not refused, if it is served, else None."""
    size, usable, count, _ = sizes(data)
    if number(data, 32) or number(data, 36):
        return None
    cells = number(data, 103, 2)
    low = 108 + 2 * cells
    if data[100] != 13 or low > usable:
        return None
    rows, places, last = [], [], 0
    for place in range(108, low, 2):
        at = number(data, place, 2)
        length = varint(data[:usable], at) if at >= low else None
        rowid = length and varint(data[:usable], length[1])
        if not rowid or length[0] > usable - 35 or rowid[1] + length[0] > usable or not last < rowid[0] < 2 ** 32:
            return None
        last = rowid[0]
        row = read_row(last, data[rowid[1]:rowid[1] + length[0]])
        spelled = row and read_table(row.text)
        if not spelled or not spelled[0].lower() == row.name.lower() == row.owner.lower() or not 2 <= row.root <= count:
            return None
        root = data[(row.root - 1) * size:row.root * size]
        if root[0] != 13 or number(root, 3, 2):
            return None
        rows.append(row)
        places.append((at, rowid[1] + length[0]))
    places.sort()
    if any(one[1] > two[0] for one, two in zip(places, places[1:])):
        return None
    if len({row.name.lower() for row in rows}) < len(rows) or len({row.root for row in rows}) < len(rows):
        return None
    return size, usable, count, rows


def write_first(page, usable, rows):
    """Page 1 with these rows, where they have room."""
    cells = [row.cell() for row in rows]
    if any(len(row.record()) > usable - 35 for row in rows) or 108 + 2 * len(cells) + sum(map(len, cells)) > usable:
        return None
    at = start = usable - sum(map(len, cells))
    pointers = b""
    for cell in cells:
        pointers += at.to_bytes(2, "big")
        at += len(cell)
    head = b"\x0d\0\0" + len(cells).to_bytes(2, "big") + (start % 65536).to_bytes(2, "big") + b"\0" + pointers
    return page[:100] + (head + bytes(start - 100 - len(head))) + b"".join(cells) + page[usable:]


def commit(page, count):
    counter = ((number(page, 24) + 1) % 2 ** 32).to_bytes(4, "big")
    cookie = ((number(page, 40) + 1) % 2 ** 32).to_bytes(4, "big")
    form = max(3, number(page, 44)).to_bytes(4, "big")
    return page[:24] + counter + count.to_bytes(4, "big") + page[32:40] + cookie + form + page[48:92] + counter + page[96:]


def answer(data, script):
    """The lines, the status and the file that have to come, beside a cold journal; `data` is None where there is no file."""
    if len(script) > 2 ** 20:
        return b"script 1048576 too-long\n", 2, data
    commands = read_script(script)
    if commands is None:
        return b"script 0 unbuilt\n", 2, data
    if data is None:
        return b"fault read\n", 4, data
    refused = refusal(data)
    served = None if refused else read_file(data)
    if not served:
        return b"file %s\n" % (refused or b"unbuilt"), 3, data
    size, usable, count, rows = served
    page, lines = data[:size], []
    columns = [[column.lower() for column in read_table(row.text)[1]] for row in rows]
    for table, column in commands:
        place = next((at for at, row in enumerate(rows) if row.name.lower() == table.lower()), None)
        if place is None:
            lines.append(b"refused no-such-table")
        elif column.lower() in columns[place]:
            lines.append(b"refused column-taken")
        elif len(columns[place]) >= 2000:
            lines.append(b"refused too-many-columns")
        else:
            row = rows[place]
            end = read_table(row.text)[2]
            text = row.text[:end] + b", " + column + row.text[end:]
            wanted = rows[:place] + [Row(row.rowid, row.name, row.owner, row.root, text)] + rows[place + 1:]
            new = write_first(commit(page, count), usable, wanted)
            lines.append(b"ok" if new else b"refused unbuilt")
            if new:
                page, rows = new, wanted
                columns[place].append(column.lower())
    out = b"".join(b"%d %s\n" % (at + 1, line) for at, line in enumerate(lines))
    return out, int(any(line != b"ok" for line in lines)), page + data[size:]
