"""Made schemas: small texts with few names, so that these meet often. Most uses name what stands at their place."""

import random
import re

COLUMNS = ("a", "b", "c", "k")
TABLES = ("t", "u", "w")
VIEWS = ("v", "x", "y")
QUALIFIERS = TABLES + ("x", "s", "p", "q", "r")
NO_COLUMNS = ("null", "true", "false")
ROWIDS = ("rowid", "oid", "_rowid_")
FUNCTION_COLUMNS = ["key", "value", "type", "atom", "id", "parent", "fullkey", "path"]
SCHEMA_COLUMNS = ["type", "name", "tbl_name", "rootpage", "sql"]
OPERATORS = ("+", "||", "=", "<", "AND", "OR", "IS", "IS NOT", "LIKE", "->>")


class Seen:
    """What is seen at a place: sources as pairs of a name or None and columns, and the names of WITH with theirs."""

    def __init__(self, sources=(), withs=()):
        self.sources, self.withs = list(sources), dict(withs)

    def inner(self, sources):
        """The same with these sources at a scope further in."""
        return Seen(list(sources) + self.sources, self.withs)

    def with_names(self, more):
        """The same with these names of WITH."""
        return Seen(self.sources, {**self.withs, **more})


class Maker:
    """Makes schemas from a seed."""

    def __init__(self, seed):
        self.random = random.Random(seed)
        self.objects, self.tables, self.indexes = {}, {}, {}

    def chance(self, percent):
        """Whether a chance of so many in a hundred comes."""
        return self.random.random() * 100 < percent

    def pick(self, choices):
        """One of these."""
        return self.random.choice(list(choices))

    def some(self, make, most):
        """One to `most` of what `make` makes."""
        return [make() for _ in range(self.random.randint(1, most))]

    def spelled(self, name):
        """A name in one of its spellings."""
        form = self.random.randrange(40)
        if form == 0:
            return '"%s"' % name
        if form == 1:
            return "[%s]" % name
        if form == 2:
            return "`%s`" % name.upper()
        return name.upper() if form == 3 else name

    # expressions

    def column(self, seen):
        """A column-use."""
        if self.chance(4):
            return self.pick(ROWIDS + ("true", "false", '"a"', '"zz"', "FALSE", "[true]"))
        qualifier, columns = self.pick(seen.sources) if seen.sources and self.chance(92) else (self.pick(QUALIFIERS), [])
        name = self.pick(columns) if columns and self.chance(96) else self.pick(COLUMNS)
        several = sum(name in each for _, each in seen.sources) > 1 and self.chance(85)
        if qualifier in ("new", "old", "excluded") or (qualifier is not None and (several or self.chance(35))):
            if self.chance(3):
                name = self.pick(ROWIDS)
            prefix = "main." if self.chance(4) else ""
            return "%s%s.%s" % (prefix, self.spelled(qualifier), self.spelled(name))
        return self.spelled(name) if self.chance(96) else '"%s"' % name

    def expr(self, seen, depth=2, simple=False):
        """An expression; a simple one has no select in it."""
        form = self.random.randrange(100)
        if depth == 0 or form < 62:
            return self.column(seen) if form % 10 else self.pick(("1", "'a'", "NULL", "2.5", "x'00'"))

        def inner():
            return self.expr(seen, depth - 1, simple)

        if form < 74:
            return "%s %s %s" % (inner(), self.pick(OPERATORS), inner())
        if form < 77:
            return "(%s)" % inner()
        if form < 80:
            return "%s(%s)" % (self.pick(("abs", "length", "typeof")), inner())
        if form < 83:
            return "%s COLLATE NOCASE" % inner()
        if form < 86:
            return "CASE %s WHEN %s THEN %s ELSE %s END" % (inner(), inner(), inner(), inner())
        if form < 88:
            return "%s IN (%s, %s)" % (inner(), inner(), inner())
        return inner() if simple else self.with_select(seen, depth - 1)

    def with_select(self, seen, depth):
        """An expression with a select or an object in it."""
        form = self.random.randrange(10)
        if form < 4:
            return "(%s)" % self.select(seen, depth, 1)[0]
        if form < 6:
            return "EXISTS (%s)" % self.select(seen, depth)[0]
        item = self.expr(seen, 0)
        if form < 8:
            return "%s IN (%s)" % (item, self.select(seen, depth, 1)[0])
        if form < 9:
            return "%s IN %s" % (item, self.object_name(seen)[0])
        return "%s NOT IN %s(%s)" % (item, self.pick(("json_each", "json_tree")), self.expr(seen, 0))

    # sources

    def object_name(self, seen):
        """A source name and its columns."""
        known = {**self.objects, **seen.withs}
        if self.chance(2):
            return self.pick(("gone", "json_each", "main.gone", "temp.t")), []
        if self.chance(2):
            return self.pick(("sqlite_master", "sqlite_schema")), SCHEMA_COLUMNS
        name = self.pick(seen.withs) if seen.withs and self.chance(50) else self.pick(known)
        prefix = "main." if self.chance(4) else ""
        return prefix + self.spelled(name), known[name]

    def source(self, seen, around, depth, before):
        """A source's text, and the sources that it gives; `around` is what a select in it sees."""
        form = self.random.randrange(100)
        if depth > 0 and form < 16:
            text, columns = self.select(around, depth - 1)
            alias = self.new_alias(before) if self.chance(85) else None
            return "(%s)%s" % (text, self.alias(alias)), [(alias, columns)]
        if form < 20:
            name = self.pick(("json_each", "json_tree"))
            alias = self.new_alias(before) if self.chance(60) else None
            args = "" if self.chance(10) else self.expr(around.inner(before), 0)
            return "%s(%s)%s" % (name, args, self.alias(alias)), [(alias or name, FUNCTION_COLUMNS)]
        if form < 26:
            text, sources = self.sources(seen, around, depth, before)
            return "(%s)" % text, sources
        name, columns = self.object_name(seen)
        plain = name.split(".")[-1].strip('"[]`').lower()
        taken = any(plain == each for each, _ in before) and self.chance(90)
        alias = self.new_alias(before) if taken or self.chance(30) else None
        return name + self.alias(alias) + self.indexing(plain), [(alias or plain, columns)]

    def new_alias(self, before):
        """An alias, mostly one that no source before has."""
        if self.chance(3):
            return self.pick(QUALIFIERS + ("new",))
        return self.pick([each for each in QUALIFIERS if all(each != name for name, _ in before)] or QUALIFIERS)

    def alias(self, name):
        """The words of an alias, or nothing."""
        return "" if name is None else " AS " + name if self.chance(60) else " " + name

    def indexing(self, table):
        """INDEXED BY, NOT INDEXED, or mostly nothing."""
        if self.chance(96):
            return ""
        known = self.indexes.get(table, [])
        return " INDEXED BY " + self.pick(known or ["i"]) if self.chance(75) else " NOT INDEXED"

    def sources(self, seen, around, depth, before=()):
        """The sources of a FROM or a group."""
        before = list(before)
        text, found = self.source(seen, around, depth, before)
        while self.chance(28) and len(found) < 4:
            right, more = self.source(seen, around, depth, before + found)
            text += self.joined(seen, right, before + found, more)
            found = found + more
        return text, found

    def joined(self, seen, right, left, more):
        """A join with its right side and its constraint."""
        form = self.random.randrange(100)
        common = [name for _, columns in left for name in columns if any(name in each for _, each in more)]
        if form < 30:
            return self.pick((", ", " JOIN ", " CROSS JOIN ")) + right
        if form < 55:
            return " %s %s ON %s" % (self.pick(("JOIN", "LEFT JOIN", "INNER JOIN")), right, self.expr(seen.inner(left + more), 1))
        if form < 80:
            return self.pick((" NATURAL JOIN ", " NATURAL LEFT JOIN ")) + right
        names = [self.pick(common) if common and self.chance(95) else self.pick(COLUMNS)]
        return " JOIN %s USING (%s)" % (right, ", ".join(names))

    # selects

    def select(self, seen, depth, width=None):
        """A select and its columns, `width` of them if that is told."""
        prefix = ""
        if depth > 0 and self.chance(12):
            prefix, seen = self.with_clause(seen, depth)
        if self.chance(4):
            width = width or self.random.randint(1, 2)
            rows = ["(%s)" % ", ".join(self.expr(seen, 0) for _ in range(width)) for _ in range(self.random.randint(1, 2))]
            return "%sVALUES %s" % (prefix, ", ".join(rows)), ["column%d" % (at + 1) for at in range(width)]
        text, columns, sources, aliases = self.arm(seen, depth, width)
        compound = self.chance(12)
        if compound:
            text += self.pick((" UNION ", " UNION ALL ", " EXCEPT ")) + self.further_arm(seen, depth, len(columns))
        text = prefix + text
        if self.chance(22):
            text += " ORDER BY " + ", ".join(self.some(lambda: self.term(seen, sources, aliases or columns, compound), 2))
        if self.chance(6):
            limit = Seen((), seen.withs)
            text += " LIMIT " + (self.expr(limit, 1) if self.chance(30) else self.pick(("1", '"a"', "2 OFFSET 1", "1, 2")))
        return text, columns

    def further_arm(self, seen, depth, width):
        """An arm after the first, mostly with as many columns."""
        width = max(1, width if self.chance(95) else width + 1)
        if self.chance(8):
            return "VALUES (%s)" % ", ".join(self.expr(seen, 0) for _ in range(width))
        return self.arm(seen, max(0, depth - 1), width)[0]

    def term(self, seen, sources, names, compound):
        """A term of ORDER BY."""
        if names and self.chance(60):
            name = self.pick(names)
            name = name if name is not None else "a"
            return self.pick(("%s", "%s DESC", "(%s) COLLATE NOCASE", "%s")) % name
        # SQLite sees nothing outward here
        return self.expr(seen.inner(sources) if self.chance(10) else Seen(sources, seen.withs), 0 if compound else 1)

    def with_clause(self, seen, depth):
        """A WITH, and what is seen behind it."""
        names = self.random.sample(["s", "x", "t"], self.random.randint(1, 2))
        texts, known = [], {}
        for name in names:
            inner = seen.with_names(known if self.chance(97) else {**known, name: ["a"]})
            text, columns = self.select(inner, depth - 1)
            listed = ""
            if self.chance(30):
                count = len(columns) + (self.chance(5) and 1)
                columns = [self.pick(COLUMNS) for _ in range(max(1, count))]
                listed = "(%s)" % ", ".join(columns)
            elif self.chance(12) and columns:
                step = "SELECT %s FROM %s" % (", ".join(each or "1" for each in columns), name)
                text = "SELECT %s %s %s" % (", ".join("1 AS %s" % (each or "q") for each in columns),
                                            self.pick(("UNION", "UNION ALL")), step)
            texts.append("%s%s AS (%s)" % (name, listed, text))
            known[name] = columns
        return "WITH %s " % ", ".join(texts), seen.with_names(known)

    def arm(self, seen, depth, width):
        """An arm SELECT: its text, its columns, its sources, and its aliases."""
        sources, text_from = [], ""
        if self.chance(92):
            text_from, sources = self.sources(seen, seen, depth)
            text_from = " FROM " + text_from
        inner = seen.inner(sources)
        items, columns, aliases = self.items(inner, sources, depth, width)
        text = "SELECT %s%s%s" % ("DISTINCT " if self.chance(3) else "", ", ".join(items), text_from)
        behind = inner.inner([(None, aliases)]) if aliases else inner
        if self.chance(30):
            text += " WHERE " + self.expr(behind, depth)
        if self.chance(8):
            group = Seen(sources + ([(None, aliases)] if aliases else []), seen.withs)
            text += " GROUP BY " + ", ".join("+" + each for each in self.some(lambda: self.expr(group, min(depth, 1)), 2))
            if self.chance(40):
                text += " HAVING " + self.expr(behind, min(depth, 1))
        return text, columns, sources, aliases

    def items(self, seen, sources, depth, width):
        """The items of an arm, its columns, and its aliases."""
        if width is None and sources and self.chance(20):
            name, columns = self.pick(sources)
            if name is not None and self.chance(50):
                return [self.spelled(name) + ".*"], columns, []
            return ["*"], [each for _, every in sources for each in every], []
        items, columns, aliases = [], [], []
        for _ in range(width or self.random.randint(1, 2)):
            text = self.window(seen) if self.chance(2) else self.expr(seen, depth)
            name = None
            if self.chance(45):
                name = self.pick(COLUMNS + ("z",))
                aliases.append(name)
                items.append("%s%s %s" % (text, " AS" if self.chance(80) else "", name))
            else:
                items.append(text)
                last = re.fullmatch(r"(?:\w+\.)*([a-z_]\w*)", re.sub(r'["\[\]`]', "", text).lower())
                name = last.group(1) if last and last.group(1) not in NO_COLUMNS else None
            columns.append(name)
        return items, [each or "z" for each in columns], aliases

    def window(self, seen):
        """A window function over a window of its own."""
        return "sum(%s) OVER (PARTITION BY %s ORDER BY %s)" % tuple(self.expr(seen, 0, True) for _ in range(3))

    # texts

    def table(self, name):
        """The text of a table."""
        columns = self.random.sample(COLUMNS, self.random.randint(1, 3))
        self.objects[name] = self.tables[name] = columns
        seen = Seen([(name, columns)])
        parts = ["%s%s" % (self.spelled(each), self.pick(("", "", " TEXT", " INTEGER"))) for each in columns]
        if self.chance(20):
            parts[0] += " DEFAULT (%s)" % self.pick(("1", "1 + 2", "abs(2)"))
        if self.chance(12):
            parts[0] += " CHECK (%s)" % self.expr(seen, 1, True)
        if self.chance(10):
            parts[-1] += " REFERENCES %s%s" % (self.pick(TABLES + ("gone",)), self.pick(("", "(a)", "(b)")))
        if self.chance(6):
            parts.append("z AS (%s)" % self.expr(seen, 1, True))
            columns.append("z")
        if self.chance(2):
            parts.append(self.pick(columns).upper())
        if self.chance(60):
            parts.append("%s (%s)" % (self.pick(("PRIMARY KEY", "UNIQUE")), self.key(columns)))
        if self.chance(5):
            parts.append("FOREIGN KEY (%s) REFERENCES t" % self.key(columns))
        if self.chance(12):
            parts.append("CHECK (%s)" % self.expr(seen, 2, True))
        keyed = any(part.startswith("PRIMARY") for part in parts) and self.chance(50)
        return "CREATE TABLE %s(%s)%s" % (name, ", ".join(parts), " WITHOUT ROWID" if keyed else "")

    def key(self, columns):
        """A column of these, or rarely a name that is none."""
        return self.pick(columns) if self.chance(97) else self.pick(COLUMNS)

    def index(self, name):
        """The text of an index."""
        table = self.pick(TABLES[:2]) if self.chance(97) else self.pick(("v", "gone", "sqlite_master"))
        self.indexes.setdefault(table, []).append(name)
        columns = self.tables.get(table, [])
        key = self.pick(columns) if columns and self.chance(60) else self.expr(Seen([(None, columns)]), 1, True)
        if key.startswith("'") or self.chance(4):
            key = "'%s'" % self.pick(COLUMNS)
        where = " WHERE " + self.expr(Seen([(table, columns)]), 1, True) if self.chance(25) else ""
        return "CREATE INDEX %s ON %s(%s)%s" % (name, table, key, where)

    def view(self, name):
        """The text of a view."""
        if self.chance(2):
            self.objects[name] = ["a"]
        text, columns = self.select(Seen(), 2)
        listed = ""
        if self.chance(15) and columns:
            columns = [self.pick(COLUMNS) for _ in range(len(columns) + (self.chance(6) and 1))]
            listed = "(%s)" % ", ".join(columns)
        self.objects[name] = columns
        return "CREATE VIEW %s%s AS %s" % (name, listed, text)

    # triggers

    def trigger(self, name):
        """The text of a trigger."""
        on = self.pick(self.objects) if self.chance(97) else "gone"
        columns = self.objects.get(on, ["a"])
        time = self.pick(("BEFORE ", "AFTER ", "")) if on not in VIEWS else "INSTEAD OF "
        event = self.pick(("INSERT", "UPDATE", "DELETE"))
        rows = {"INSERT": ["new"], "DELETE": ["old"], "UPDATE": ["new", "old"]}[event]
        seen = Seen([(each, columns) for each in rows])
        if event == "UPDATE" and columns and self.chance(30):
            event += " OF %s" % (self.pick(columns) if self.chance(95) else self.pick(ROWIDS + COLUMNS))
        when = " WHEN " + self.expr(seen, 1) if self.chance(20) else ""
        statements = "".join(self.statement(seen) + "; " for _ in range(self.random.randint(1, 2)))
        where = "main." + on if self.chance(5) else on
        return "CREATE TRIGGER %s %s%s ON %s%s BEGIN %sEND" % (name, time, event, where, when, statements)

    def statement(self, seen):
        """A statement of a trigger."""
        target = self.pick(self.tables) if self.chance(97) else "gone"
        columns = self.tables.get(target, ["a"])
        inner = seen.inner([(target, columns)])
        form = self.random.randrange(4)
        if form == 0:
            return self.select(seen, 1)[0]
        if form == 1:
            return "DELETE FROM %s WHERE %s" % (target, self.expr(inner, 2))
        if form == 2:
            return self.update(target, columns, seen)
        return self.insert(target, columns, seen, inner)

    def listed(self, columns):
        """A name that is set or listed."""
        return self.pick(columns) if columns and self.chance(94) else self.pick(COLUMNS + ROWIDS)

    def update(self, target, columns, seen):
        """An UPDATE, with a FROM or without."""
        text, sources = "", []
        if self.chance(35):
            text, sources = self.sources(seen.inner([(target, columns)]), seen, 1)
            text = " FROM " + text
        inner = seen.inner([(target, columns)] + sources)
        sets = self.some(lambda: "%s = %s" % (self.listed(columns), self.expr(inner, 1)), 2)
        where = " WHERE " + self.expr(inner, 1) if self.chance(60) else ""
        return "UPDATE %s SET %s%s%s" % (target, ", ".join(sets), text, where)

    def insert(self, target, columns, seen, inner):
        """An INSERT, with an upsert or without."""
        names = [self.listed(columns) for _ in range(self.random.randint(1, 2))]
        text = "INSERT INTO %s(%s) " % (target, ", ".join(names))
        if self.chance(50):
            text += "VALUES (%s)" % ", ".join(self.expr(seen, 1) for _ in names)
        else:
            more, sources = self.sources(seen, seen, 1)
            here = seen.inner(sources)
            text += "SELECT %s FROM %s WHERE %s" % (", ".join(self.expr(here, 0) for _ in names), more, self.expr(here, 1))
        if self.chance(40):
            text += " ON CONFLICT DO "
            excluded = inner.inner([("excluded", columns)])
            text += "NOTHING" if self.chance(20) else "UPDATE SET %s = %s WHERE %s" % (
                self.listed(columns), self.expr(excluded, 1), self.expr(excluded, 1))
        return text

    def schema(self):
        """The texts of a schema: tables, indexes, views and triggers."""
        texts = [self.table(name) for name in TABLES[:self.random.randint(2, 3)]]
        texts += [self.index(name) for name in ("i", "j") if self.chance(50)]
        texts += [self.view(name) for name in VIEWS[:self.random.randint(1, 3)]]
        return texts + [self.trigger(name) for name in ("g", "h") if self.chance(60)]
