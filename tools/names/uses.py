"""The uses of a text, each with the level at which it stands, by the sections Selects, Joins and Texts of docs/names.md."""

from contextlib import contextmanager

from names import trees as t
from names.scopes import (
    Binder, Column, From, Join, Level, Source, all_binders, denoted, sees, source_sees,
)
from names.tokens import fold

TABLE_FUNCTIONS = {"json_each": 1, "json_tree": 2}


class Use:
    """A use: its row, the indices of its tokens, its kind, and what it was found to denote.

    Kinds: column, listed, source, function, on, indexed, star, using, natural, parent, parent column, parent keys.
    """

    def __init__(self, row, names, kind, level=None):
        self.row, self.names, self.kind, self.level = row, names, kind, level
        self.sides = []  # the levels of a USING name
        self.sights = None  # what it denotes, two for a USING name
        self.is_literal = self.is_unbound = False
        self.pairs = self.keys = None
        self.bodies, self.exempt = (), None  # the bodies of WITH around it; the one that a source name may name
        self.marks = frozenset()  # the parts of the text in which it stands

    @property
    def at(self):
        """The offset of its first token."""
        return self.row.tokens[self.names[0]].at

    def spelling(self):
        """Its folded names."""
        return [fold(self.row.tokens[name].spells()) for name in self.names]

    def look(self, spelling):
        """The sights under a spelling, a list for each level that is asked."""
        if self.kind == "using":
            return [sees(level, spelling) for level in self.sides]
        if self.kind == "on":
            return [source_sees(self.level, self.level, spelling)]
        if self.kind == "source":
            return [source_sees(self.level, self.row.objects, spelling)]
        return [sees(self.level, spelling)]

    def ask(self):
        """Finds what it denotes, once."""
        if self.sights is not None or self.kind == "natural":
            return self
        found = self.look(self.spelling())
        self.sights = [sight for sight in map(denoted, found) if sight is not None]
        if self.kind == "column" and not found[0]:
            token = self.row.tokens[self.names[0]]
            self.is_literal = len(self.names) == 1 and (token.text[0] == '"' or token.word() in ("TRUE", "FALSE"))
        if self.kind.startswith("parent"):
            self.is_unbound = not self.sights
        return self

    def ask_using(self, left, right):
        """Asks a name in USING on its two sides."""
        self.sides = [left, right]
        self.ask()

    def is_found(self):
        """Whether it denotes what it is to denote."""
        if self.kind == "natural":
            return True
        return len(self.sights) == (2 if self.kind == "using" else 1)

    def is_fine(self):
        """Whether it denotes something, or is a literal or unbound."""
        return self.is_found() or self.is_literal or self.is_unbound

    def binder(self):
        """What it denotes, or None."""
        return self.ask().sights[0].binder if self.ask().sights else None


class With:
    """A name of a WITH: its identity, the select of its body, and the bodies that it stands on."""

    def __init__(self, identity):
        self.identity, self.select, self.names, self.stands_on = identity, None, None, set()

    def columns(self):
        """The columns of its body's first arm, under its list."""
        return listed_columns(self.select.columns(), self.names)


def listed_columns(columns, names):
    """The columns under a list of names, or as they are where there is none."""
    if names is None:
        return columns
    padded = list(names) + [None] * len(columns)
    return [Column(name, column.denotes, column.denotes) for name, column in zip(padded, columns)]


class Arm:
    """An arm: its number of columns, and for a SELECT its FROM, its aliases and its plain level."""

    def __init__(self, walk, tree, outer):
        self.walk, self.tree, self.froms = walk, tree, From()
        self.is_values = isinstance(tree, t.ValuesArm)
        self.plain = Level(() if self.is_values else self._plain_binders, outer)
        self.starred = {}  # the uses before `.*`, by item
        self._columns = None

    def _plain_binders(self):
        return all_binders(self.froms.settle())

    def aliases(self, kind):
        """The aliases as binders of a class."""
        return [
            Binder(self.walk.spells(item.alias), self.identity(at), kind, at, None, None, False, self.identity(at))
            for at, item in enumerate(self.tree.items)
            if item.alias is not None
        ]

    def identity(self, item, place=0):
        """The identity of a result column."""
        return ("result", self.walk.row.number, self.tree.first, item, place)

    def columns(self):
        """Its result columns."""
        if self._columns is None:
            self._columns = self._values_columns() if self.is_values else self._select_columns()
        return self._columns

    def _values_columns(self):
        count = len(self.tree.rows[0][1])
        return [Column("column%d" % (at + 1), self.identity(at), self.identity(at)) for at in range(count)]

    def _select_columns(self):
        found = []
        for at, item in enumerate(self.tree.items):
            if item.expr is None:
                covered = self._covered(at, item)
                found += [Column(each.name, self.identity(at, k), each.origin) for k, each in enumerate(covered)]
            else:
                found.append(self._item_column(at, item))
        return found

    def _covered(self, at, item):
        sources = self.froms.settle()
        if item.star_of is None:
            return [
                column for source in sources for place, column in enumerate(source.columns)
                if place not in source.joined_away
            ]
        binder = self.starred[at].binder()
        return binder.source.columns if binder else []

    def _item_column(self, at, item):
        own = self.identity(at)
        if item.alias is not None:
            return Column(self.walk.spells(item.alias), own, own)
        tree = t.one_use(item.expr, False)
        binder = self.walk.uses_of[tree].binder() if tree else None
        if binder is None:
            return Column(None, own, own)
        if binder.denotes[0] == "rowid" or binder.denotes == ("fixed", 0, 5):
            return Column(self.walk.spells(tree.names[-1]), own, own)
        return Column(binder.name, own, binder.origin)


class SelectScope:
    """A select that was walked: its arms."""

    def __init__(self):
        self.arms = []

    def columns(self):
        """The result columns: those of the first arm."""
        return self.arms[0].columns()


class Walk:
    """Lists the uses of one row's text, with their levels."""

    def __init__(self, schema, row):
        self.schema, self.row = schema, row
        self.uses, self.uses_of, self.withs = [], {}, []
        self.counts = []  # a token, what tells whether the numbers differ there, and the bodies of WITH around
        self.select_scope = self.view_names = None
        self.bodies = ()
        self.marks = frozenset()

    @contextmanager
    def marked(self, mark):
        """Marks the uses that are listed meanwhile with the part of the text in which they stand."""
        around, self.marks = self.marks, self.marks | {mark}
        yield
        self.marks = around

    def spells(self, name):
        """The folded name that a token spells."""
        return fold(self.row.tokens[name].spells())

    def use(self, names, kind, level=None):
        """A further use."""
        found = Use(self.row, names, kind, level)
        found.bodies, found.marks = self.bodies, self.marks
        self.uses.append(found)
        return found

    def empty_sources(self):
        """An empty level of source names: objects stand behind it in views and triggers."""
        return Level((), self.row.objects)

    def count(self, token, differs):
        """Numbers of columns are to be compared, with a fault at the token."""
        self.counts.append((token, differs, self.bodies))

    # expressions

    def expr(self, tree, level, names):
        """An expression that stands at a level, with the level `names` of source names."""
        for part in tree.parts:
            self.operand(part.operand, level, names)
            for postfix in part.postfixes:
                self.operand(postfix, level, names)

    def exprs(self, trees, level, names):
        """Several expressions at one level; None is none."""
        for tree in trees:
            if tree is not None:
                self.expr(tree, level, names)

    def operand(self, tree, level, names):
        """An operand or a postfix."""
        if isinstance(tree, t.ColumnUse):
            self.uses_of[tree] = self.use(tree.names, "column", level)
        elif isinstance(tree, (t.Exprs, t.Call)):
            self.exprs(tree.exprs, level, names)
        elif isinstance(tree, t.Subquery):
            self.select(tree.select, level, names)
        elif isinstance(tree, t.InObject):
            self.source_name(tree.names, names)
        elif isinstance(tree, t.InFunction):
            self.function_name(tree.name)
            self.exprs(tree.args, level, names)

    # sources

    def source_name(self, tokens, names, exempt=None):
        """A source name at a level of source names."""
        found = self.use(tokens, "source", names)
        found.exempt = exempt
        return found

    def function_name(self, token):
        """The name of a table function."""
        level = self.schema.functions if self.row.objects is not None else Level()
        return self.use([token], "function", level)

    def identity(self, place):
        """The identity of a source at a place of this text."""
        return ("source", self.row.number, place)

    def sources(self, tree, froms, place, exempt=None):
        """A FROM or a group: its sources in order. `place` is a `Place`."""
        mine = self.source(tree.first, froms, place, exempt)
        for joined in tree.joined:
            left = list(froms.sources)
            right = self.source(joined.source, froms, place, exempt)
            natural = self.use([joined.natural], "natural") if joined.natural is not None else None
            if natural is not None:
                natural.froms = froms
            using = []
            for name in joined.using or []:
                use = self.use([name], "using")
                use.froms = froms
                using.append(use)
            if natural is not None or using:
                froms.joins.append(Join(left, right, natural, using))
            if joined.on is not None:
                with self.marked("on"):
                    self.expr(joined.on, place.level, place.names)
            mine = mine + right
        return mine

    def source(self, tree, froms, place, exempt):
        """A source, or the sources of a group."""
        if isinstance(tree, t.GroupSource):
            with self.marked("group"):
                return self.sources(tree.sources, froms, place, exempt)
        if isinstance(tree, t.ObjectSource):
            found = self.object_source(tree, place, exempt)
        elif isinstance(tree, t.FunctionSource):
            found = self.function_source(tree, froms, place)
        else:
            scope = self.select(tree.select, place.outer, place.names)
            name = None if tree.alias is None else self.spells(tree.alias)
            found = Source(self.identity(tree.first), name, scope.columns)
        froms.sources.append(found)
        return [found]

    def object_source(self, tree, place, exempt):
        """A table, view or WITH name as a source."""
        use = self.source_name(tree.names, place.names, exempt)
        found = self.named_source(use, tree.names[-1], tree.alias)
        if tree.indexed is not None:
            self.use([tree.indexed], "indexed", Level(lambda: self.schema.indexes_of(use)))
        return found

    def named_source(self, use, name, alias=None):
        """The source that a source name gives, under its alias or its own name."""
        binder = use.binder()
        denotes = binder.denotes if binder else None
        shown = name if alias is None else alias
        return Source(self.identity(name), self.spells(shown), lambda: self.schema.columns(denotes),
                      self.schema.rowid(denotes), denotes)

    def function_source(self, tree, froms, place):
        """A table function as a source."""
        before = list(froms.sources)

        def shown():
            froms.settle()
            return all_binders(place.before + before)

        use = self.function_name(tree.name)
        with self.marked("arguments"):
            self.exprs(tree.args, Level(shown, place.outer), place.names)
        return self.named_source(use, tree.name, tree.alias)

    # selects

    def select(self, tree, outer, names, body_of=None):
        """A select: `outer` is the level for columns around it; `body_of` the WITH name whose body it is."""
        scope = SelectScope()
        if tree.ctes:
            names = self.with_level(tree.ctes, outer, names)
        for number, arm_tree in enumerate(tree.arms):
            arm = Arm(self, arm_tree, outer)
            scope.arms.append(arm)
            if arm.is_values:
                self.values_arm(arm, names)
            else:
                self.select_arm(arm, outer, names, body_of if number else None)
        for arm in scope.arms[1:]:
            self.count(arm.tree.first, lambda arm=arm: len(arm.columns()) != len(scope.columns()))
        self.order(tree.order, scope.arms, outer, names)
        self.exprs(tree.limit, Level(), names)
        return scope

    def with_level(self, ctes, outer, names):
        """The level that a WITH opens; its bodies are walked."""
        mine = [With(("with", self.row.number, cte.name)) for cte in ctes]
        self.withs += mine
        level = Level([
            Binder(self.spells(cte.name), each.identity, 0, 0, None, None, False, each.identity)
            for cte, each in zip(ctes, mine)
        ], names)
        around = self.bodies
        for cte, each in zip(ctes, mine):
            self.schema.withs[each.identity] = each
            self.bodies = around + (each,)
            each.select = self.select(cte.select, outer, level, each)
            each.names = self.column_list(cte.columns, each.select)
        self.bodies = around
        return level

    def column_list(self, tokens, scope):
        """The names of a column list, or None; its count is compared with the select's."""
        if tokens is None:
            return None
        self.count(tokens[0], lambda: len(tokens) != len(scope.columns()))
        return [self.spells(name) for name in tokens]

    def values_arm(self, arm, names):
        """An arm VALUES."""
        rows = arm.tree.rows
        for first, exprs in rows:
            self.exprs(exprs, arm.plain, names)
            self.count(first, lambda exprs=exprs: len(exprs) != len(rows[0][1]))

    def select_arm(self, arm, outer, names, exempt):
        """An arm SELECT; a source of it may name the WITH `exempt`."""
        tree = arm.tree
        if tree.sources is not None:
            self.sources(tree.sources, arm.froms, Place(arm.plain, outer, names), exempt)
        alias_level = Level(lambda: all_binders(arm.froms.settle()) + arm.aliases(3), outer)
        for at, item in enumerate(tree.items):
            if item.expr is not None:
                self.expr(item.expr, arm.plain, names)
            elif item.star_of is not None:
                arm.starred[at] = self.use([item.star_of], "star", Level(lambda: star_binders(arm.froms)))
        self.exprs(tree.where + tree.having, alias_level, names)
        with self.marked("order"):
            self.exprs(tree.group, alias_level, names)
        self.exprs(tree.windows, arm.plain, names)

    def order(self, terms, arms, outer, names):
        """The ORDER BY of a select with these arms."""
        def shown(kind):
            return [
                binder for number, arm in enumerate(arms) if not arm.is_values
                for binder in all_binders(arm.froms.settle(), 4 * number) + arm.aliases(4 * number + kind)
            ]

        first, second = Level(lambda: shown(3), outer), Level(lambda: shown(0), outer)
        for term in terms:
            one = t.one_use(term, True)
            with self.marked("order"):
                self.expr(term, second if one is not None and len(one.names) == 1 else first, names)


class Place:
    """Where a FROM stands: its level, the level around its selects, that of source names, and sources before it."""

    def __init__(self, level, outer, names, before=()):
        self.level, self.outer, self.names, self.before = level, outer, names, list(before)


def star_binders(froms):
    """The level of the name before `.*`: each named source of the arm."""
    return [
        Binder(source.name, source.identity, 0, 0, None, source, False, source.identity)
        for source in froms.sources
        if source.name is not None
    ]
