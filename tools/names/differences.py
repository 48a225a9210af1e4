"""The known differences between docs/names.md and sqlite3: which rows they explain, and why they are there."""

import re

from names import trees as t
from names.scopes import ROWID_NAMES
from names.uses import TABLE_FUNCTIONS

SUBJECT = re.compile(r"(?:no such column|ambiguous column name|no such table|no such index): (.*)|cannot join using column (\S+)"
                     r"|table \S+ has no column named (.*)|unknown column \"(.*)\" in foreign|duplicate column name: (.*)")

# What sqlite3 refuses for other reasons than the names of a schema.
NO_NAMES = re.compile("|".join((
    r"sub-select returns \d+ columns", r'the "\." operator prohibited', "generated columns cannot be part", "no query solution",
    "row value misused", "misuse of ", "cannot (UPDATE|INSERT into) generated column", 'near "(ORDER|LIMIT|ON)"',
    "target object/alias may not appear", "must have at least one non-generated column", "too many arguments on",
    r"\d+ values for \d+ columns", "generated column loop", "default value of column", "ON CONFLICT clause does not match",
    "expressions prohibited in PRIMARY KEY", "table sqlite_master may not be modified", "no tables specified",
    "non-deterministic", "object name reserved", "wrong number of arguments",
)))


def subject(message):
    """The name that a message is about, folded, or None."""
    found = SUBJECT.match(message)
    if found is None:
        return None
    text = next(group for group in found.groups() if group is not None)
    return re.sub(r'["`\[\]]', "", text).lower()


def uses_named(case):
    """The uses of a row that are spelled as the message's name, or end as it does."""
    name = subject(case.message)
    if name is None:
        return []
    last = name.split(".")[-1]
    return [use for use in case.row.walk.uses if ".".join(use.spelling()) == name or use.spelling()[-1] == last]


def has_alias_alone(tree):
    """Whether a tree has a source with an alias alone in parentheses."""
    if isinstance(tree, t.GroupSource):
        first = tree.sources.first
        if not tree.sources.joined and (has_alias_alone(first) or getattr(first, "alias", None) is not None):
            return True
    return any(has_alias_alone(each) for each in parts_of(tree))


def parts_of(tree):
    """The trees and lists directly in a tree."""
    values = tree if isinstance(tree, (list, tuple)) else vars(tree).values() if hasattr(tree, "__dataclass_fields__") else ()
    return [each for each in values if isinstance(each, (list, tuple)) or hasattr(each, "__dataclass_fields__")]


def trees_in(tree, kind):
    """Whether a tree of this kind stands in the tree."""
    return isinstance(tree, kind) or any(trees_in(each, kind) for each in parts_of(tree))


def live_bodies(row):
    """The WITH names that sqlite3 looks at: those that are named outside of all bodies, or in a body of these."""
    live = set()
    while True:
        more = {
            use.binder().denotes for use in row.walk.uses
            if use.kind == "source" and use.binder() is not None and use.binder().denotes[0] == "with"
            and all(body.identity in live for body in use.bodies)
        } - live
        if not more:
            return live
        live |= more


def is_unused(row, bodies):
    """Whether these bodies have one that sqlite3 doesn't look at."""
    live = live_bodies(row)
    return any(body.identity not in live for body in bodies)


# Where this reading refuses a fault and sqlite3 doesn't.

def in_unused_body(case, fault):
    return is_unused(case.row, fault.bodies)


def in_body_used_inside(_case, fault):
    return bool(fault.bodies) and fault.use is not None and fault.use.kind == "column"


def of_rowid(_case, fault):
    return fault.use is not None and fault.use.spelling()[-1] in ROWID_NAMES


def in_order_of_statement(_case, fault):
    return fault.use is not None and {"statement", "order"} <= fault.use.marks


def in_order_by(case, fault):
    return fault.use is not None and "order" in fault.use.marks and any(
        item.expr is None for item in items_of(case.row.tree))


def after_update_of(case, fault):
    return case.row.kind == "trigger" and fault.use is not None and fault.use.names[0] in case.row.tree.columns


def function_without_parentheses(_case, fault):
    return fault.use is not None and fault.use.kind == "source" and fault.use.spelling()[-1] in TABLE_FUNCTIONS


def in_arguments(_case, fault):
    return fault.use is not None and "arguments" in fault.use.marks


def alias_in_on(_case, fault):
    return fault.use is not None and "on" in fault.use.marks and len(fault.use.names) == 1


def of_schema_table(_case, fault):
    return fault.use is not None and len(fault.use.names) > 1 and fault.use.spelling()[-2] in ("sqlite_master", "sqlite_schema")


def of_json_rowid_or_hidden(_case, fault):
    return fault.use is not None and fault.use.spelling()[-1] in ("json", "root")


def items_of(tree):
    """The result items in a tree."""
    found = [tree] if isinstance(tree, t.Item) else []
    return found + [item for each in parts_of(tree) for item in items_of(each)]


def made_up(case, fault):
    """An item without an alias that is an expression spelled so, or a text in double quotes, has that name in sqlite3."""
    if fault.use is None:
        return False
    last = fault.use.spelling()[-1]
    return any(item.expr is not None and item.alias is None and t.one_use(item.expr, True) is not None
               and row.walk.spells(t.one_use(item.expr, True).names[-1]) == last
               and (t.one_use(item.expr, False) is None or row.walk.uses_of.get(t.one_use(item.expr, False)) is None
                    or row.walk.uses_of[t.one_use(item.expr, False)].is_literal)
               for row in case.schema.rows for item in items_of(row.tree))


def sights_of(fault):
    """The sights of a fault's use, where it is a column-use."""
    return fault.use.look(fault.use.spelling())[0] if fault.use is not None and fault.use.kind == "column" else []


def of_joined_twins(_case, fault):
    return len(sights_of(fault)) > 1 and any(sight.binder.wants_qualifier for sight in sights_of(fault))


def of_second_column(_case, fault):
    binders = [sight.binder for sight in sights_of(fault) if sight.binder.source is not None]
    return any(each.name == binder.name for binder in binders for each in binder.source.columns[:binder.place])


def in_upsert(_case, fault):
    return fault.use is not None and "upsert" in fault.use.marks


REFUSED_HERE = (
    ("a WITH name that nobody uses is read here", in_unused_body),
    ("a body of WITH sees there what is around the place at which its name is used", in_body_used_inside),
    ("views and derived sources have rowid names in some builds of SQLite", of_rowid),
    ("ORDER BY of a trigger's own select isn't read there", in_order_of_statement),
    ("columns of a star are aliases in ORDER BY there", in_order_by),
    ("an upsert of a table without a key that can be met isn't read there", in_upsert),
    ("two joined sources of one name, with a column that is joined", of_joined_twins),
    ("a second column of a name in one source has another name there", of_second_column),
    ("a table function without parentheses is a source there", function_without_parentheses),
    ("arguments of a table function see all sources of the FROM there", in_arguments),
    ("ON sees aliases there", alias_in_on),
    ("the schema table has one name as a qualifier there", of_schema_table),
    ("json_each has further columns there", of_json_rowid_or_hidden),
    ("a name that SQLite makes up can't be used here", made_up),
)


# Where sqlite3 refuses and this reading doesn't.

def other_reason(case):
    return NO_NAMES.search(case.message) is not None


def main_and_no_object(case):
    return any(use.spelling()[0] == "main" and len(use.names) == 3 and use.sights and use.sights[0].binder.source is not None
               and (use.sights[0].binder.source.hidden or (use.sights[0].binder.source.stands_for or ("",))[0] != "object")
               for use in uses_named(case))


def order_outward(case):
    return any("order" in use.marks and use.sights and use.sights[0].outward > 0 for use in uses_named(case))


def alias_dropped(case):
    return has_alias_alone(case.row.tree) and subject(case.message) is not None


def schema_table(case):
    return (subject(case.message) or "").split(".")[0] == "sqlite_schema"


def column_of_values(case):
    return re.fullmatch(r"(\w+\.)*column\d+", subject(case.message) or "") is not None


def rowid_of_several(case):
    return (subject(case.message) or "").split(".")[-1] in ROWID_NAMES


def group_by_itself(case):
    return subject(case.message) is not None and any(
        use.kind in ("using", "natural") and use.marks & {"group", "update"} for use in case.row.walk.uses
    ) or any({"group", "on"} <= use.marks for use in uses_named(case))


def arguments(case):
    return any("arguments" in use.marks for use in uses_named(case))


def function_of_no_parentheses(case):
    return any(function_without_parentheses(case, fault) for fault in case.faults)


def star_of_two(case):
    return case.message.startswith("ambiguous") and (subject(case.message) or "").count(".") == 2 and any(
        item.expr is None for item in items_of(case.row.tree))


def update_from(case):
    return any("update" in use.marks for use in uses_named(case))


def compound_order(case):
    return "ORDER BY term does not match" in case.message


def recursion(case):
    return re.match("multiple references to recursive|circular reference|recursive reference", case.message) is not None


def two_withs(case):
    return case.message.startswith("duplicate WITH table name")


REFUSED_THERE = (
    ("SQLite refuses for another reason than a name", other_reason),
    ("main before a source that is no object", main_and_no_object),
    ("ORDER BY and GROUP BY of a subquery see nothing outward there", order_outward),
    ("the alias of a source alone in parentheses, behind a join, is dropped there", alias_dropped),
    ("the schema table has one name as a qualifier there", schema_table),
    ("a column of VALUES that is one name has that name there", column_of_values),
    ("a rowid name is seen where one source alone has rowids there", rowid_of_several),
    ("a group in parentheses, or the FROM of an UPDATE, is joined by itself there", group_by_itself),
    ("arguments of a table function see all sources of the FROM there", arguments),
    ("a table function without parentheses is a source there", function_of_no_parentheses),
    ("a star over two sources of one name is ambiguous there", star_of_two),
    ("the sources of an UPDATE's FROM don't see its target there", update_from),
    ("a term of a compound's ORDER BY must be a result column there", compound_order),
    ("only the last arms of a UNION may name their own WITH name there, and once", recursion),
    ("two equal names in one WITH are refused there", two_withs),
)


def explained_by(case):
    """The known difference that explains a case, or None."""
    if case.message is not None:
        return next((name for name, explains in REFUSED_THERE if explains(case)), None)
    if case.circular:
        return REFUSED_HERE[0][0] if any(each.identity not in live_bodies(case.row) for each in case.row.walk.withs) else None
    if any(after_update_of(case, fault) for fault in case.faults):
        return "a missing name after UPDATE OF is no fault there, and its trigger isn't read"
    names = [next((name for name, explains in REFUSED_HERE if explains(case, fault)), None) for fault in case.faults]
    known = {last_name(fault) for fault, name in zip(case.faults, names) if name is not None} - {None}
    # an item that denotes nothing has no name, so a use of that name is a fault, too
    if any(name is None and last_name(fault) not in known for fault, name in zip(case.faults, names)):
        return None
    return next(name for name in names if name is not None)


def last_name(fault):
    """The last name of a fault's use, or None."""
    return fault.use.spelling()[-1] if fault.use is not None else None
