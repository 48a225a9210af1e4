"""What sqlite3 says of a schema's objects: it accepts each one, or refuses it with a message."""

import re
import shutil
import subprocess

from names import trees as t
from names.schema import Schema
from names.scopes import ROWID_NAMES
from names.tokens import fold

ERROR = re.compile(r"^(?:Parse|Runtime) error near line (\d+): (.*?)(?: \(\d+\))?$")
SETTINGS = (".open :memory:", ".dbconfig dqs_ddl on", ".dbconfig dqs_dml on")


def is_there():
    """Whether there is a sqlite3."""
    return shutil.which("sqlite3") is not None


def quoted(name):
    """A name in double quotes."""
    return '"%s"' % name.replace('"', '""')


class Script:
    """Lines for sqlite3, some of which ask for the verdict on an object."""

    def __init__(self):
        self.lines, self.askers = [], {}

    def say(self, line, asker=None):
        """A further line; a fault of it is one of `asker`."""
        self.lines.append(line)
        if asker is not None:
            self.askers[len(self.lines)] = asker

    def schema(self, number, schema):
        """Makes the objects of a schema and asks for each one."""
        for line in SETTINGS:
            self.say(line)
        rows = [(row, (number, row.number)) for row in schema.rows]
        for row, asker in rows:
            if row.kind != "trigger":
                self.say(row.text + ";", asker)
        for row, asker in rows:
            if row.kind == "view":
                self.say("EXPLAIN SELECT * FROM %s;" % quoted(row.name), asker)
            if row.kind == "trigger":
                self.say(row.text + ";", asker)
                if fires(schema, row) is not None:
                    self.say("EXPLAIN %s;" % fires(schema, row), asker)
                self.say("DROP TRIGGER IF EXISTS %s;" % quoted(row.name))

    def run(self):
        """The first message for each asker that has one."""
        words = ["sqlite3", "-batch", ":memory:"]
        ran = subprocess.run(words, input="\n".join(self.lines).encode("latin-1"), stdout=subprocess.DEVNULL,
                             stderr=subprocess.PIPE, check=False)
        found = {}
        for line in ran.stderr.decode("latin-1").splitlines():
            error = ERROR.match(line)
            if error is None:
                continue
            asker = self.askers.get(int(error.group(1)))
            if asker is not None:
                found.setdefault(asker, error.group(2))
        return found


def fires(schema, row):
    """A statement that fires the trigger, or None where none can."""
    table = quoted(row.tokens[row.tree.table[-1]].spells())
    if row.tree.event == "INSERT":
        return "INSERT INTO %s DEFAULT VALUES" % table
    if row.tree.event == "DELETE":
        return "DELETE FROM %s" % table
    names = settable(schema, row)
    listed = {fold(row.tokens[name].spells()) for name in row.tree.columns}
    if not names or (listed and not listed & {fold(name) for name in names}):
        return None
    return "UPDATE %s SET %s" % (table, ", ".join("%s = NULL" % quoted(name) for name in names))


def is_asked(schema, row):
    """Whether sqlite3 reads the whole row."""
    return row.kind != "trigger" or fires(schema, row) is not None


def settable(schema, row):
    """The names of the trigger's table that may be set: no generated columns."""
    on = next(use for use in row.walk.uses if use.kind == "on").binder()
    if on is None or schema.circular_rows():
        return []
    if schema.row(on.denotes).kind == "view":
        return [column.name for column in schema.columns(on.denotes) if column.name is not None]
    target = schema.row(on.denotes)
    names = [
        target.tokens[column.name].spells() for column in target.tree.columns
        if not any(isinstance(each, t.Generated) for each in column.constraints)
    ]
    return names + ([] if target.tree.keyed else list(ROWID_NAMES))


def messages(texts_of):
    """The schemas of these lists of texts, each with what sqlite3 says of its rows, by number."""
    schemas = [Schema(texts) for texts in texts_of]
    script = Script()
    for number, schema in enumerate(schemas):
        if is_walked(schema):
            script.schema(number, schema)
    found = script.run()
    for number, schema in enumerate(schemas):
        yield schema, {row.number: found.get((number, row.number)) for row in schema.rows}


def is_walked(schema):
    """Whether the texts could be read."""
    return all(row.walk is not None for row in schema.rows)
