"""Trees of the texts. A name is the index of its token; constraints and words that name nothing are left out."""

from dataclasses import dataclass, field


def node(cls):
    """A tree's node: compared by identity."""
    return dataclass(eq=False)(cls)


@node
class ColumnUse:
    names: list


@node
class Literal:
    text: object  # the token of a Str, else None


@node
class Call:
    exprs: list  # arguments, terms, FILTER and the window's own


@node
class Exprs:
    """Expressions in parentheses, of a CASE, a CAST or a RAISE; `parens` where they stand in parentheses alone."""

    exprs: list
    parens: bool = False


@node
class Subquery:
    select: object


@node
class InObject:
    names: list


@node
class InFunction:
    name: int
    args: list


@node
class Collate:
    pass


@node
class NullTest:
    pass


@node
class Part:
    prefixed: bool
    operand: object
    postfixes: list


@node
class Expr:
    parts: list


@node
class ObjectSource:
    names: list
    alias: object
    indexed: object


@node
class FunctionSource:
    name: int
    args: list
    alias: object


@node
class SelectSource:
    first: int
    select: object
    alias: object


@node
class GroupSource:
    sources: object


@node
class Joined:
    natural: object
    source: object
    on: object
    using: object


@node
class Sources:
    first: object
    joined: list


@node
class Item:
    """A result item: `*` and `name.*` have no expression."""

    expr: object = None
    alias: object = None
    star_of: object = None


@node
class SelectArm:
    first: int
    items: list
    sources: object
    where: list
    group: list
    having: list
    windows: list


@node
class ValuesArm:
    first: int
    rows: list  # pairs of the first token and the expressions


@node
class Cte:
    name: int
    columns: object
    select: object


@node
class Select:
    ctes: list
    arms: list
    order: list
    limit: list


@node
class References:
    table: int
    columns: object


@node
class Check:
    expr: object


@node
class Default:
    expr: object


@node
class Generated:
    expr: object


@node
class Key:
    """PRIMARY KEY or UNIQUE: of a column where `keys` is None."""

    primary: bool
    keys: object


@node
class ForeignKey:
    columns: list
    parent: object


@node
class Column:
    name: int
    constraints: list


@node
class CreateTable:
    name: int
    columns: list
    constraints: list
    keyed: bool


@node
class CreateIndex:
    name: int
    table: int
    keys: list
    where: object


@node
class CreateView:
    name: int
    columns: object
    select: object


@node
class Assignment:
    names: list
    expr: object


@node
class Upsert:
    keys: list
    keys_where: object
    sets: list
    where: object


@node
class Update:
    target: int
    sets: list
    sources: object
    where: object


@node
class Insert:
    target: int
    columns: list
    select: object
    upserts: list


@node
class Delete:
    target: int
    where: object


@node
class CreateTrigger:
    name: int
    event: str
    columns: list
    table: list
    when: object
    statements: list = field(default_factory=list)


def one_use(expr, collations):
    """The column-use that the expression is, parentheses aside, and COLLATE too where `collations`; else None."""
    while True:
        if len(expr.parts) != 1:
            return None
        part = expr.parts[0]
        if part.prefixed or not all(collations and isinstance(each, Collate) for each in part.postfixes):
            return None
        operand = part.operand
        if isinstance(operand, ColumnUse):
            return operand
        if isinstance(operand, Exprs) and operand.parens and len(operand.exprs) == 1:
            expr = operand.exprs[0]
        else:
            return None


def as_key(expr):
    """The key of a table or an index: one Str, with parentheses and one COLLATE at most, is a column there."""
    at, collations = expr, 0
    while len(at.parts) == 1 and not at.parts[0].prefixed:
        part = at.parts[0]
        if not all(isinstance(each, Collate) for each in part.postfixes):
            break
        collations += len(part.postfixes)
        if collations > 1:
            break
        if isinstance(part.operand, Literal) and part.operand.text is not None:
            part.operand = ColumnUse([part.operand.text])
            break
        if not (isinstance(part.operand, Exprs) and part.operand.parens and len(part.operand.exprs) == 1):
            break
        at = part.operand.exprs[0]
    return expr
