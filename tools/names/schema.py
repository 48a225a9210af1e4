"""A schema of texts: what each use denotes, or the first refusal, by docs/names.md."""

from typing import NamedTuple

from names import trees as t
from names.grammar import Parser, Syntax
from names.scopes import Binder, Column, Level
from names.statements import read_text
from names.texts import TextWalk
from names.tokens import first_too_deep, fold, tokens
from names.uses import listed_columns

SCHEMA_TABLE = ("fixed", 0)
FIXED_COLUMNS = {
    0: ("type", "name", "tbl_name", "rootpage", "sql"),
    1: ("key", "value", "type", "atom", "id", "parent", "fullkey", "path"),
}
KINDS = {t.CreateTable: "table", t.CreateIndex: "index", t.CreateView: "view", t.CreateTrigger: "trigger"}


class Fault(NamedTuple):
    """A fault of a text: its place, its kind (a use, a count, a second column), the use, the bodies of WITH around."""

    at: int
    kind: str
    use: object = None
    bodies: tuple = ()


class Row:
    """A row of the schema: its number from 1, its text, tokens and tree."""

    def __init__(self, number, text):
        self.number, self.text = number, text
        self.tokens, self.bad = tokens(text)
        self.tree = read_text(self.tokens) if self.bad is None else None
        self.kind = KINDS.get(type(self.tree), "")
        self.name = spelled_name(self.tokens) if self.tree is None else self.tokens[self.tree.name].spells()
        self.objects = None  # the level of the objects, in the texts of views and triggers
        self.indexed = None  # the table that an index is of
        self.walk = None
        self.primary = lambda: []

    def unreadable(self):
        """Where the text can't be read, or None."""
        if self.bad is not None:
            return self.bad
        deep = first_too_deep(self.tokens)
        if deep is not None:
            return deep
        return 0 if self.tree is None else None


def spelled_name(found):
    """The name behind the first words of a text that no tree spells, or nothing."""
    parser = Parser(found)
    try:
        parser.need("CREATE")
        parser.take("UNIQUE")
        parser.need_any(("TABLE", "INDEX", "VIEW", "TRIGGER"))
        parser.take("IF", "NOT", "EXISTS")
        return found[parser.name()].spells()
    except Syntax:
        return ""


def object_binder(name, denotes):
    """An object at the level of objects."""
    return Binder(fold(name), denotes, 0, 0, None, None, False, denotes)


class Schema:
    """The rows of a schema, their uses, and what the uses denote."""

    def __init__(self, texts):
        self.rows = [Row(number, text) for number, text in enumerate(texts, 1)]
        self.withs = {}
        by_kind = {kind: [row for row in self.rows if row.kind == kind] for kind in KINDS.values()}
        tables = [object_binder(row.name, ("object", row.number)) for row in by_kind["table"]]
        views = [object_binder(row.name, ("object", row.number)) for row in by_kind["view"]]
        fixed = [object_binder(name, SCHEMA_TABLE) for name in ("sqlite_schema", "sqlite_master")]
        self.parents = Level(tables)
        self.tables = Level(tables)
        self.tables_and_views = Level(tables + views)
        self.objects = Level(tables + views + fixed)
        self.functions = Level([object_binder("json_each", ("fixed", 1)), object_binder("json_tree", ("fixed", 2))])
        self._columns = {}
        self.refusal = self._unreadable()
        if self.refusal is None:
            for row in self.rows:
                row.objects = self.objects if row.kind in ("view", "trigger") else None
                row.walk = TextWalk(self, row)
                row.walk.text()
            self.refusal = self._circular() or self._unresolved()

    def row(self, identity):
        """The row of an object."""
        return self.rows[identity[1] - 1]

    # columns

    def columns(self, denotes):
        """The columns of what a source name denotes; none where it denotes nothing."""
        if denotes is None:
            return []
        if denotes not in self._columns:
            self._columns[denotes] = self._make_columns(denotes)
        return self._columns[denotes]

    def _make_columns(self, denotes):
        if denotes[0] == "fixed":
            names = FIXED_COLUMNS[min(denotes[1], 1)]
            identities = [("fixed", denotes[1], place) for place in range(len(names))]
            return [Column(name, identity, identity) for name, identity in zip(names, identities)]
        if denotes[0] == "with":
            return self.withs[denotes].columns()
        row = self.row(denotes)
        if row.kind == "table":
            identities = [("column", row.number, place) for place in range(len(row.tree.columns))]
            return [
                Column(fold(row.tokens[column.name].spells()), identity, identity)
                for column, identity in zip(row.tree.columns, identities)
            ]
        return listed_columns(row.walk.select_scope.columns(), row.walk.view_names)

    def rowid(self, denotes):
        """The identity of the rowid of what a source name denotes, or None."""
        if denotes == SCHEMA_TABLE:
            return ("fixed", 0, len(FIXED_COLUMNS[0]))
        if denotes is None or denotes[0] != "object":
            return None
        row = self.row(denotes)
        return ("rowid", row.number) if row.kind == "table" and not row.tree.keyed else None

    def indexes_of(self, source):
        """The binders of the indexes of the table that a source name denotes."""
        binder = source.binder()
        if binder is None or binder.denotes[0] != "object" or self.row(binder.denotes).kind != "table":
            return []
        return [
            object_binder(row.name, ("object", row.number))
            for row in self.rows
            if row.kind == "index" and row.indexed == binder.denotes
        ]

    # refusals

    def _unreadable(self):
        for row in self.rows:
            at = row.unreadable()
            if at is not None:
                return "unreadable %s %d" % (quoted(row.name), at)
        return None

    def _circular(self):
        for row in self.circular_rows():
            return "circular " + quoted(row.name)
        return None

    def circular_rows(self):
        """The circular objects, in order."""
        on_views, on_withs = {}, {}
        for row in self.rows:
            for each in row.walk.withs:
                on_withs.setdefault(each.identity, set())
            for use in row.walk.uses:
                if use.kind == "source" and use.binder() is not None:
                    self._stands_on(row, use, on_views, on_withs)
        return [
            row for row in self.rows
            if on_itself(("object", row.number), on_views)
            or any(on_itself(each.identity, on_withs) for each in row.walk.withs)
        ]

    def _stands_on(self, row, use, on_views, on_withs):
        denotes = use.binder().denotes
        if denotes[0] == "object" and row.kind == "view" and self.row(denotes).kind == "view":
            on_views.setdefault(("object", row.number), set()).add(denotes)
        if denotes[0] == "with":
            for body in use.bodies:
                if not (use.exempt is body and denotes == body.identity):
                    on_withs[body.identity].add(denotes)

    def _unresolved(self):
        for row in self.rows:
            faults = self.faults(row)
            if faults:
                return "unresolved %s %d" % (quoted(row.name), min(fault.at for fault in faults))
        return None

    def faults(self, row):
        """The faults of a row of a schema that is not circular."""
        counts = [Fault(row.tokens[at].at, "count", None, bodies) for at, differs, bodies in row.walk.counts if differs()]
        uses = [Fault(use.at, "use", use, use.bodies) for use in self.uses_of(row) if not use.is_fine()]
        return counts + [Fault(at, "column") for at in self._second_columns(row)] + uses

    def _second_columns(self, row):
        if row.kind != "table":
            return []
        found = [fold(row.tokens[column.name].spells()) for column in row.tree.columns]
        return [
            row.tokens[column.name].at
            for place, column in enumerate(row.tree.columns)
            if found[place] in found[:place]
        ]

    def uses_of(self, row):
        """The uses of a row in order of offsets, each asked."""
        uses = sorted(row.walk.uses, key=lambda use: use.at)
        for use in uses:
            if use.kind in ("using", "natural"):
                use.froms.settle()
            else:
                use.ask()
        return uses

    # answers

    def denotes(self, use):
        """What a use of a valid schema denotes, as it is printed."""
        if use.kind == "natural":
            return "pairs %d" % len(use.pairs)
        if use.is_literal:
            return "literal"
        if use.is_unbound:
            return "unbound"
        if use.kind == "parent keys":
            return "keys %d" % len(self.row(use.sights[0].binder.denotes).primary())
        told = [told_identity(sight.binder.denotes) for sight in use.sights]
        return "two %s, %s" % tuple(told) if use.kind == "using" else told[0]

    def answer(self):
        """The line that is the answer."""
        if self.refusal is not None:
            return escaped(self.refusal)
        found = ["%d:%d %s" % (row.number, use.at, self.denotes(use)) for row in self.rows for use in self.uses_of(row)]
        return "\t".join(["ok"] + found)


def on_itself(one, stands_on):
    """Whether `one` stands on itself, in one step or more."""
    reached, fresh = set(), list(stands_on.get(one, ()))
    while fresh:
        each = fresh.pop()
        if each not in reached:
            reached.add(each)
            fresh += stands_on.get(each, ())
    return one in reached


def told_identity(denotes):
    """An identity as it is printed."""
    if denotes[0] == "object":
        return "object %d" % denotes[1]
    if denotes[0] == "column":
        return "column %d %d" % denotes[1:]
    if denotes[0] == "rowid":
        return "rowid %d" % denotes[1]
    return denotes[0]


def quoted(name):
    """A name in double quotes, doubled inside."""
    return '"' + name.replace('"', '""') + '"'


ESCAPES = {"\\": "\\\\", "\t": "\\t", "\n": "\\n", "\r": "\\r"}


def escaped(text):
    """A text as a field: see docs/cases.md."""
    return "".join(
        ESCAPES.get(char) or (char if " " <= char <= "~" else "\\x%02x" % ord(char)) for char in text
    )


def unescaped(field):
    """The text of a field, or None where an escape is none of docs/cases.md."""
    found, at = [], 0
    back = {value[1]: key for key, value in ESCAPES.items()}
    while at < len(field):
        if field[at] != "\\":
            found.append(field[at])
            at += 1
        elif field[at + 1:at + 2] in back:
            found.append(back[field[at + 1]])
            at += 2
        else:
            digits = field[at + 2:at + 4]
            if field[at + 1:at + 2] != "x" or len(digits) != 2 or not all(each in "0123456789abcdefABCDEF" for each in digits):
                return None
            found.append(chr(int(digits, 16)))
            at += 4
    return "".join(found)


def answer_line(line):
    """The answer to a line of fields."""
    fields = line.split("\t")
    texts = [unescaped(field) for field in fields[1:]]
    if fields[0] != "uses" or None in texts:
        return "no such case"
    return Schema(texts).answer()
