"""The uses of a table's, an index's, a view's and a trigger's text, by the section Texts of docs/names.md."""

from names import trees as t
from names.scopes import From, Level, Source, all_binders
from names.uses import Place, Walk


class TextWalk(Walk):
    """Lists the uses of a whole text."""

    def text(self):
        """All uses of the row's tree."""
        tree = self.row.tree
        if isinstance(tree, t.CreateTable):
            self.table(tree)
        elif isinstance(tree, t.CreateIndex):
            self.index(tree)
        elif isinstance(tree, t.CreateView):
            self.select_scope = self.select(tree.select, None, self.empty_sources())
            self.view_names = self.column_list(tree.columns, self.select_scope)
        elif isinstance(tree, t.CreateTrigger):
            self.trigger(tree)

    # tables

    def own_source(self, identity, name):
        """The table as a source of its own text, or of its index's."""
        return Source(self.identity("own"), name, lambda: self.schema.columns(identity), self.schema.rowid(identity),
                      stands_for=identity)

    def table(self, tree):
        """A table's text."""
        own = self.own_source(("object", self.row.number), self.spells(tree.name))
        columns = Level(lambda: own.binders(rowids=False))
        check = Level(own.binders)
        for column in tree.columns:
            for each in column.constraints:
                self.constraint(each, columns, check)
        for each in tree.constraints:
            self.constraint(each, columns, check)
        self.primary_keys(tree)

    def constraint(self, tree, columns, check):
        """A constraint of a column or a table."""
        names = self.empty_sources()
        if isinstance(tree, t.Check):
            self.expr(tree.expr, check, names)
        elif isinstance(tree, t.Generated):
            self.expr(tree.expr, columns, names)
        elif isinstance(tree, t.Default):
            self.expr(tree.expr, Level(), names)
        elif isinstance(tree, t.Key):
            self.exprs(tree.keys or [], columns, names)
        elif isinstance(tree, t.ForeignKey):
            for name in tree.columns:
                self.use([name], "listed", columns)
            self.references(tree.parent)
        elif isinstance(tree, t.References):
            self.references(tree)

    def references(self, tree):
        """REFERENCES with its list or without one."""
        parent = self.use([tree.table], "parent" if tree.columns is not None else "parent keys", self.schema.parents)
        for name in tree.columns or []:
            self.use([name], "parent column", Level(lambda: self.parent_binders(parent)))

    def parent_binders(self, parent):
        """The columns of the parent that a use denotes."""
        binder = parent.binder()
        if binder is None:
            return []
        return Source(self.identity("parent"), None, lambda: self.schema.columns(binder.denotes)).binders()

    def primary_keys(self, tree):
        """What tells the columns of the table's primary key."""
        for place, column in enumerate(tree.columns):
            if any(isinstance(each, t.Key) and each.primary for each in column.constraints):
                self.row.primary = lambda: [("column", self.row.number, place)]
                return
        for each in tree.constraints:
            if isinstance(each, t.Key) and each.primary:
                self.row.primary = lambda: self.key_columns(each.keys)
                return

    def key_columns(self, keys):
        """The columns of keys that are each one."""
        uses = [t.one_use(key, True) for key in keys]
        binders = [self.uses_of[use].binder() for use in uses if use is not None]
        return [binder.denotes for binder in binders if binder is not None]

    # indexes

    def index(self, tree):
        """An index's text."""
        use = self.table_name([tree.table], self.schema.tables)
        binder = use.binder()
        denotes = binder.denotes if binder else None
        self.row.indexed = denotes
        own = self.own_source(denotes, self.spells(tree.table))
        names = self.empty_sources()
        self.exprs(tree.keys, Level(lambda: own.binders(rowids=False)), names)
        self.exprs([tree.where], Level(own.binders), names)

    def table_name(self, tokens, level):
        """The table of an index or a trigger."""
        use = self.use(tokens, "on", level)
        return use

    # triggers

    def trigger(self, tree):
        """A trigger's text."""
        on = self.table_name(tree.table, self.schema.tables_and_views)
        target = self.target_source(on, tree.table[-1])
        self.listed(tree.columns, target)
        rows = {"INSERT": ("new",), "DELETE": ("old",), "UPDATE": ("new", "old")}[tree.event]
        level = Level(all_binders_of([self.row_source(target, name) for name in rows]))
        self.exprs([tree.when], level, self.empty_sources())
        for statement in tree.statements:
            if isinstance(statement, t.Select):
                with self.marked("statement"):
                    self.select(statement, level, self.empty_sources())
            elif isinstance(statement, t.Update):
                self.update(statement, level)
            elif isinstance(statement, t.Insert):
                self.insert(statement, level)
            else:
                target = self.target(statement.target)
                self.exprs([statement.where], Level(target.binders, level), self.empty_sources())

    def target_source(self, use, name):
        """The source that the table of a trigger or the target of a statement is."""
        return self.named_source(use, name)

    def row_source(self, target, name):
        """NEW, OLD or `excluded`: the target's columns and rowid names, which want a qualifier."""
        return Source(self.identity((name, target.identity)), name, lambda: target.columns, target.rowid, hidden=True)

    def target(self, name):
        """The target of a statement, as a source."""
        return self.target_source(self.source_name([name], self.empty_sources()), name)

    def listed(self, names, target):
        """Names that are set or listed."""
        for name in names:
            self.use([name], "listed", Level(target.binders))

    def sets(self, sets, target, level):
        """What SET sets, with the expressions at a level."""
        for each in sets:
            self.listed(each.names, target)
            self.expr(each.expr, level, self.empty_sources())

    def update(self, tree, outer):
        """An UPDATE."""
        target = self.target(tree.target)
        froms = From()
        level = Level(lambda: all_binders([target] + froms.settle()), outer)
        if tree.sources is not None:
            with self.marked("update"):
                self.sources(tree.sources, froms, Place(level, outer, self.empty_sources(), [target]))
        self.sets(tree.sets, target, level)
        self.exprs([tree.where], level, self.empty_sources())

    def insert(self, tree, outer):
        """An INSERT with its upserts."""
        target = self.target(tree.target)
        self.listed(tree.columns, target)
        self.select(tree.select, outer, self.empty_sources())
        keys = Level(target.binders, outer)
        excluded = self.row_source(target, "excluded")
        level = Level(all_binders_of([target, excluded]), outer)
        for upsert in tree.upserts:
            self.exprs(upsert.keys + [upsert.keys_where], keys, self.empty_sources())
            with self.marked("upsert"):
                self.sets(upsert.sets, target, level)
                self.exprs([upsert.where], level, self.empty_sources())


def all_binders_of(sources):
    """What makes the binders of these sources."""
    return lambda: all_binders(sources)
