"""Compares the reading of made schemas with what sqlite3 says of them."""

from names.beside import is_asked
from names.differences import explained_by, subject


class Case:
    """A row with its faults, whether it is circular, the rows it stands on, and sqlite3's message or None."""

    def __init__(self, schema, row, messages, faults, circular):
        self.schema, self.row, self.messages = schema, row, messages
        self.message = messages[row.number]
        self.faults, self.circular = faults, circular
        self.below = [number for number in stood_on(row) if number != row.number and messages[number] is not None]

    def agrees(self):
        """Whether sqlite3 accepts a row without faults, or refuses one for a fault of it or of what it stands on."""
        own = bool(self.faults or self.circular)
        if self.message is None:
            return not own
        return bool(self.below) or (own and self.tells_a_fault())

    def tells_a_fault(self):
        """Whether the message is about the name of a fault, as far as it is about a name."""
        name = subject(self.message)
        uses = [fault.use for fault in self.faults if fault.kind == "use"]
        if self.circular or name is None or len(uses) < len(self.faults):
            return True
        return any(use.spelling()[-1] == name.split(".")[-1] for use in uses)


def stood_on(row):
    """The numbers of the rows that a row's names of tables, views and indexes denote."""
    binders = [use.binder() for use in row.walk.uses if use.kind in ("source", "on", "indexed")]
    return sorted({binder.denotes[1] for binder in binders if binder is not None and binder.denotes[0] == "object"})


def cases(schema, messages):
    """A case for each row; where some are circular, for these alone, since the others' columns can't be told."""
    circular = schema.circular_rows()
    for row in circular or schema.rows:
        if is_asked(schema, row):
            yield Case(schema, row, messages, [] if circular else schema.faults(row), row in circular)


def compared(schema, messages):
    """The number of rows that agree, that differ as is known, and the cases that differ otherwise."""
    agree, known, unknown = 0, [], []
    for case in cases(schema, messages):
        if case.agrees():
            agree += 1
            continue
        name = explained_by(case)
        if name is not None:
            known.append(name)
        else:
            unknown.append(case)
    return agree, known, unknown
