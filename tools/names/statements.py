"""A parser of docs/grammar.md's rules of the texts of a schema, above the one of expressions and selects."""

from names import trees as t
from names.grammar import ACTIONS, NUMBERS, TIMES, Parser, Syntax

RESOLUTIONS = ACTIONS | {"IGNORE", "REPLACE"}
CONSTRAINTS = frozenset("CONSTRAINT PRIMARY UNIQUE CHECK FOREIGN".split())


class TextParser(Parser):
    """Reads the text of a table, an index, a view or a trigger."""

    def text(self):
        """The one tree that all tokens spell."""
        self.need("CREATE")
        if self.take("TABLE"):
            tree = self.table()
        elif self.take("VIEW"):
            tree = self.view()
        elif self.take("TRIGGER"):
            tree = self.trigger()
        else:
            self.take("UNIQUE")
            self.need("INDEX")
            tree = self.index()
        if self.token() is not None:
            raise Syntax
        return tree

    def new_name(self):
        """The name of the object, behind IF NOT EXISTS or not."""
        if self.has("IF", "NOT"):
            self.need("IF", "NOT", "EXISTS")
        return self.name()

    # tables

    def table(self):
        """What stands behind CREATE TABLE."""
        name = self.new_name()
        self.need_sign("(")
        columns, constraints = [self.column()], []
        while self.take_sign(","):
            if self.word() in CONSTRAINTS:
                constraints.append(self.table_cons())
                while self.sign() == "," or self.word() in CONSTRAINTS:
                    self.take_sign(",")
                    constraints.append(self.table_cons())
                break
            columns.append(self.column())
        self.need_sign(")")
        keyed = False
        if self.token() is not None:
            keyed = any(self.commas(self.table_option))
        return t.CreateTable(name, columns, [each for each in constraints if each], keyed)

    def table_option(self):
        """An option of a table: whether it is WITHOUT ROWID."""
        if self.take("WITHOUT"):
            self.need("ROWID")
            return True
        self.need("STRICT")
        return False

    def column(self):
        """A column with its type and constraints."""
        name = self.name()
        self.opt_type()
        constraints = []
        while self.token() is not None and self.sign() not in (",", ")"):
            constraints.append(self.column_cons())
        return t.Column(name, [each for each in constraints if each])

    def column_cons(self):
        """One constraint of a column, or None where it names nothing."""
        if self.take("CONSTRAINT") or self.take("COLLATE"):
            self.name()
        elif self.take("PRIMARY"):
            self.need("KEY")
            self.take_any(("ASC", "DESC"))
            self.opt_conflict()
            self.take("AUTOINCREMENT")
            return t.Key(True, None)
        elif self.take("NOT", "NULL") or self.take("NULL"):
            self.opt_conflict()
        elif self.take("UNIQUE"):
            self.opt_conflict()
        elif self.take("CHECK"):
            return t.Check(self.in_parens(self.expr))
        elif self.take("DEFAULT"):
            return self.default()
        elif self.has("REFERENCES"):
            return self.references()
        else:
            if self.take("GENERATED"):
                self.need("ALWAYS")
            self.need("AS")
            expr = self.in_parens(self.expr)
            self.take_any(("STORED", "VIRTUAL"))
            return t.Generated(expr)
        return None

    def default(self):
        """What stands behind DEFAULT."""
        if self.sign() == "(":
            return t.Default(self.in_parens(self.expr))
        signed = self.sign() in ("+", "-")
        self.at += signed
        if self.kind() in NUMBERS | {"Str", "Blob"} or self.has("NULL") or self.word() in TIMES:
            self.at += 1
        elif signed:
            raise Syntax
        else:
            self.name()
        return None

    def opt_conflict(self):
        """Passes ON CONFLICT, if it stands here."""
        if self.take("ON"):
            self.need("CONFLICT")
            self.need_any(RESOLUTIONS)

    def references(self):
        """REFERENCES with its list, its actions and its deferral."""
        self.need("REFERENCES")
        found = t.References(self.name(), self.opt_names())
        while self.has("ON") or self.has("MATCH"):
            if self.take("MATCH"):
                self.name()
                continue
            self.need("ON")
            self.need_any(("DELETE", "UPDATE"))
            if not (self.take("SET", "NULL") or self.take("SET", "DEFAULT") or self.take("NO", "ACTION")):
                self.need_any(("CASCADE", "RESTRICT"))
        if self.take("NOT", "DEFERRABLE") or self.take("DEFERRABLE"):
            if self.take("INITIALLY"):
                self.need_any(("DEFERRED", "IMMEDIATE"))
        return found

    def table_cons(self):
        """One constraint of a table, or None where it names nothing."""
        if self.take("CONSTRAINT"):
            self.name()
            return None
        if self.take("CHECK"):
            found = t.Check(self.in_parens(self.expr))
            self.opt_conflict()
            return found
        if self.take("FOREIGN"):
            self.need("KEY")
            columns = self.names_in_parens()
            return t.ForeignKey(columns, self.references())
        primary = self.take("PRIMARY")
        if primary:
            self.need("KEY")
        else:
            self.need("UNIQUE")
        self.need_sign("(")
        keys = self.keys()
        if primary:
            self.take("AUTOINCREMENT")
        self.need_sign(")")
        self.opt_conflict()
        return t.Key(primary, keys)

    def keys(self):
        """The keys of a table or an index."""
        return [t.as_key(expr) for expr in self.commas(self.indexed)]

    def indexed(self):
        """An expression with its order."""
        expr = self.expr()
        self.take_any(("ASC", "DESC"))
        return expr

    # indexes and views

    def index(self):
        """What stands behind CREATE INDEX."""
        name = self.new_name()
        self.need("ON")
        table = self.name()
        keys = self.in_parens(self.keys)
        return t.CreateIndex(name, table, keys, self.opt_where())

    def opt_where(self):
        """The expression behind WHERE, or None."""
        return self.expr() if self.take("WHERE") else None

    def view(self):
        """What stands behind CREATE VIEW."""
        name = self.new_name()
        columns = self.opt_names()
        self.need("AS")
        return t.CreateView(name, columns, self.select())

    # triggers

    def trigger(self):
        """What stands behind CREATE TRIGGER."""
        name = self.new_name()
        if not self.take("INSTEAD", "OF"):
            self.take_any(("BEFORE", "AFTER"))
        event, columns = self.word(), []
        self.need_any(("DELETE", "INSERT", "UPDATE"))
        if event == "UPDATE" and self.take("OF"):
            columns = self.commas(self.name)
        self.need("ON")
        tree = t.CreateTrigger(name, event, columns, self.object(), None)
        if self.take("FOR"):
            self.need("EACH", "ROW")
        if self.take("WHEN"):
            tree.when = self.expr()
        self.need("BEGIN")
        while True:
            tree.statements.append(self.statement())
            self.need_sign(";")
            if self.take("END"):
                return tree

    def statement(self):
        """One statement of a trigger."""
        if self.take("UPDATE"):
            return self.update()
        if self.take("DELETE"):
            self.need("FROM")
            return t.Delete(self.name(), self.opt_where())
        if self.take("REPLACE"):
            return self.insert()
        if self.take("INSERT"):
            self.opt_or()
            return self.insert()
        return self.select()

    def opt_or(self):
        """Passes OR with its action, if it stands here."""
        if self.take("OR"):
            self.need_any(RESOLUTIONS)

    def update(self):
        """What stands behind UPDATE."""
        self.opt_or()
        target = self.name()
        self.need("SET")
        sets = self.commas(self.assignment)
        sources = self.sources() if self.take("FROM") else None
        return t.Update(target, sets, sources, self.opt_where())

    def assignment(self):
        """What is set, and to what."""
        names = self.names_in_parens() if self.sign() == "(" else [self.name()]
        self.need_sign("=")
        return t.Assignment(names, self.expr())

    def insert(self):
        """What stands behind INSERT or REPLACE."""
        self.need("INTO")
        target = self.name()
        columns = self.opt_names() or []
        select = self.select()
        upserts = []
        while self.take("ON"):
            upserts.append(self.upsert())
        return t.Insert(target, columns, select, upserts)

    def upsert(self):
        """What stands behind the ON of an upsert."""
        self.need("CONFLICT")
        found = t.Upsert([], None, [], None)
        if self.sign() == "(":
            found.keys = self.in_parens(lambda: self.commas(self.indexed))
            found.keys_where = self.opt_where()
        self.need("DO")
        if self.take("NOTHING"):
            return found
        self.need("UPDATE", "SET")
        found.sets = self.commas(self.assignment)
        found.where = self.opt_where()
        return found


def read_text(tokens):
    """The tree that the tokens spell, or None."""
    try:
        return TextParser(tokens).text()
    except Syntax:
        return None
