"""Binders, levels, and what a use sees and denotes, by the sections Levels, Sources and Result columns of docs/names.md."""

from functools import cached_property
from typing import NamedTuple

MAIN = "main"
ROWID_NAMES = ("rowid", "oid", "_rowid_")


class Column(NamedTuple):
    """A column as others see it: its folded name or None, its identity, and the end of its chain of inheritance."""

    name: object
    denotes: tuple
    origin: tuple


class Binder(NamedTuple):
    """A binder as it stands at a level."""

    name: object
    denotes: tuple
    kind: int
    place: int
    qualifier: object
    source: object
    wants_qualifier: bool
    origin: object


class Sight(NamedTuple):
    """A binder that is seen, and how many scopes outward it is."""

    outward: int
    binder: Binder


class Level:
    """A list of binders and the level around it, or None."""

    def __init__(self, binders=(), outer=None):
        self._binders, self.outer = binders, outer

    @cached_property
    def binders(self):
        """The binders, which are made when they are first asked for."""
        return list(self._binders() if callable(self._binders) else self._binders)

    def scopes(self):
        """This level and those around it, with their numbers."""
        level, outward = self, 0
        while level is not None:
            yield outward, level
            level, outward = level.outer, outward + 1


def sees(level, spelling):
    """The sights of a column-use: a list of one, two or three folded names."""
    if len(spelling) == 3 and spelling[0] != MAIN:
        return []
    qualifier, name = (None if len(spelling) == 1 else spelling[-2]), spelling[-1]
    return [
        Sight(outward, binder)
        for outward, scope in level.scopes()
        for binder in scope.binders
        if binder.name == name
        and (not binder.wants_qualifier if qualifier is None else binder.qualifier == qualifier)
    ]


def source_sees(level, objects, spelling):
    """The sights of a source name: `objects` is the level of the objects, or None in the text of a table or an index."""
    if len(spelling) == 2:
        return sees(objects, spelling[1:]) if objects is not None and spelling[0] == MAIN else []
    return sees(level, spelling)


def nearer(one, other):
    """Whether the sight `one` is nearer than `other`."""
    here, there = (one.outward, one.binder.kind), (other.outward, other.binder.kind)
    if here != there:
        return here < there
    return one.binder.source is other.binder.source and one.binder.place < other.binder.place


def denoted(sights):
    """The sight that is nearer than each other one, or None."""
    for at, one in enumerate(sights):
        if all(nearer(one, other) for place, other in enumerate(sights) if place != at):
            return one
    return None


class Source:
    """A source: its identity, its name or None, its columns, and the identity of its rowid or None."""

    def __init__(self, identity, name, columns, rowid=None, stands_for=None, hidden=False):
        self.identity, self.name, self.rowid = identity, name, rowid
        self.stands_for = stands_for  # the object, fixed object or WITH name that it is
        self.hidden = hidden  # all of it wants a qualifier
        self.joined_away = set()
        self._columns = columns

    @cached_property
    def columns(self):
        """Its columns, which are made when they are first asked for."""
        return list(self._columns())

    def binders(self, shift=0, rowids=True, only_columns=False):
        """How it stands at a level; with `only_columns` without its rowid names."""
        found = [
            Binder(column.name, column.denotes, 1 + shift, place, self.name, self,
                   self.hidden or place in self.joined_away, column.origin)
            for place, column in enumerate(self.columns)
            if column.name is not None
        ]
        if self.rowid is not None and rowids and not only_columns:
            found += [
                Binder(name, self.rowid, 2 + shift, place, self.name, self, self.hidden, self.rowid)
                for place, name in enumerate(ROWID_NAMES)
            ]
        return found


def all_binders(sources, shift=0):
    """The binders of these sources, in order."""
    return [binder for source in sources for binder in source.binders(shift)]


class Join(NamedTuple):
    """A join with names: the sources before it, those of its right side, its NATURAL's use and those of its USING."""

    left: list
    right: list
    natural: object
    using: list


def left_level(sources):
    """The level at which a name in USING is asked on the left: each source is a level of its own, the first the nearest."""
    level = None
    for source in reversed(sources):
        level = Level(lambda source=source: unmarked(source), level)
    return level or Level()


def unmarked(source):
    """The columns of a source as binders that want no qualifier."""
    return [binder._replace(wants_qualifier=False) for binder in source.binders(only_columns=True)]


class From:
    """The sources of a FROM, in order, and its joins with names, the inner ones first."""

    def __init__(self):
        self.sources, self.joins, self.is_settled = [], [], False

    def settle(self):
        """Finds what is joined away; then gives the sources."""
        if not self.is_settled:
            self.is_settled = True
            for join in self.joins:
                self._settle(join)
        return self.sources

    def _settle(self, join):
        away = []
        if join.natural is not None:
            pairs = natural_pairs(join)
            join.natural.pairs = [(left.denotes, right.columns[place].denotes) for left, right, place in pairs]
            away += [(right, place) for _, right, place in pairs]
        visible = [binder for source in join.right for binder in source.binders(only_columns=True)]
        for use in join.using:
            use.ask_using(left_level(join.left), Level(visible))
            if use.is_found():
                right = use.sights[1].binder
                away.append((right.source, right.place))
        for source, place in away:
            source.joined_away.add(place)


def natural_pairs(join):
    """The pairs of a NATURAL: the left column, the right source and the place of its column there."""
    found = []
    for right in join.right:
        names = set()
        for place, column in enumerate(right.columns):
            if column.name is None or place in right.joined_away or column.name in names:
                continue
            names.add(column.name)
            left = next((each for source in join.left for each in source.columns if each.name == column.name), None)
            if left is not None:
                found.append((left, right, place))
    return found
