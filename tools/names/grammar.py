"""A parser of docs/grammar.md's rules: a text's tokens into its tree."""

from names import trees as t
from names.tokens import JOIN_WORDS

NO_USES = frozenset("CAST RAISE CURRENT_DATE CURRENT_TIME CURRENT_TIMESTAMP".split())
TIMES = frozenset("CURRENT_DATE CURRENT_TIME CURRENT_TIMESTAMP".split())
NO_ALIASES = JOIN_WORDS | frozenset("WINDOW OVER FILTER LIKE GLOB REGEXP MATCH".split())
MATCHES = frozenset("BETWEEN LIKE GLOB REGEXP MATCH".split())
NO_WINDOW_NAMES = frozenset("PARTITION RANGE ROWS GROUPS".split())
SIDES = frozenset("LEFT RIGHT FULL".split())
ACTIONS = frozenset("ROLLBACK ABORT FAIL".split())
NUMBERS = frozenset("Int Float Hex".split())
SELECTS = ("SELECT", "VALUES", "WITH")
NO_OPERATORS = frozenset("( ) , ; . ~".split())


class Syntax(Exception):
    """No tree spells the tokens."""


class Parser:
    """Reads trees from a list of tokens, from the token `at` on."""

    def __init__(self, tokens):
        self.tokens, self.at = tokens, 0

    # tokens

    def token(self, ahead=0):
        """The token so far ahead, or None behind the last one."""
        at = self.at + ahead
        return self.tokens[at] if at < len(self.tokens) else None

    def word(self, ahead=0):
        """The upper-case letters of the Word so far ahead, else nothing."""
        token = self.token(ahead)
        return token.word() if token else ""

    def sign(self, ahead=0):
        """The Op so far ahead, else nothing."""
        token = self.token(ahead)
        return token.text if token and token.kind == "Op" else ""

    def kind(self, ahead=0):
        """The kind of the token so far ahead."""
        token = self.token(ahead)
        return token.kind if token else ""

    def has(self, *words):
        """Whether these fixed words stand here."""
        return all(self.word(ahead) == word for ahead, word in enumerate(words))

    def take(self, *words):
        """Passes these fixed words if all stand here."""
        found = self.has(*words)
        self.at += len(words) if found else 0
        return found

    def take_any(self, words):
        """Passes one of these fixed words if it stands here."""
        found = self.word() in words and self.word() != ""
        self.at += found
        return found

    def take_sign(self, sign):
        """Passes this Op if it stands here."""
        found = self.sign() == sign
        self.at += found
        return found

    def need(self, *words):
        """Passes these fixed words."""
        if not self.take(*words):
            raise Syntax

    def need_any(self, words):
        """Passes one of these fixed words."""
        if not self.take_any(words):
            raise Syntax

    def need_sign(self, sign):
        """Passes this Op."""
        if not self.take_sign(sign):
            raise Syntax

    def is_name(self, ahead=0):
        """Whether a name stands so far ahead."""
        token = self.token(ahead)
        return token is not None and token.is_name()

    def name(self):
        """The index of the name that stands here."""
        if not self.is_name():
            raise Syntax
        self.at += 1
        return self.at - 1

    def commas(self, item):
        """Items with commas between."""
        items = [item()]
        while self.take_sign(","):
            items.append(item())
        return items

    def in_parens(self, inner):
        """What stands in parentheses."""
        self.need_sign("(")
        found = inner()
        self.need_sign(")")
        return found

    def names_in_parens(self):
        """A list of names in parentheses."""
        return self.in_parens(lambda: self.commas(self.name))

    def opt_names(self):
        """A list of names in parentheses, or None."""
        return self.names_in_parens() if self.sign() == "(" else None

    def opt_exprs(self):
        """Expressions before a closing parenthesis, or none."""
        return [] if self.sign() == ")" else self.commas(self.expr)

    def object(self):
        """A name with its qualifier, if it has one: its tokens."""
        names = [self.name()]
        if self.take_sign("."):
            names.append(self.name())
        return names

    # expressions

    def expr(self):
        """An expression."""
        parts = [self.part()]
        while self.take_infix():
            parts.append(self.part())
        return t.Expr(parts)

    def take_infix(self):
        """Passes what stands between two parts, if it does."""
        if self.sign() and self.sign() not in NO_OPERATORS:
            self.at += 1
            return True
        if self.take("IS"):
            self.take("NOT")
            if self.has("DISTINCT"):
                self.need("DISTINCT", "FROM")
            return True
        if self.word() == "NOT" and self.word(1) in MATCHES:
            self.at += 2
            return True
        return self.take_any(MATCHES) or self.take_any(("AND", "OR", "ESCAPE"))

    def part(self):
        """Prefixes, an operand and postfixes."""
        prefixed = False
        while self.sign() in ("-", "+", "~") or self.has("NOT"):
            self.at += 1
            prefixed = True
        operand = self.operand()
        postfixes = []
        postfix = self.opt_postfix()
        while postfix is not None:
            postfixes.append(postfix)
            postfix = self.opt_postfix()
        return t.Part(prefixed, operand, postfixes)

    def opt_postfix(self):
        """COLLATE, a test of NULL, or IN with its set; else None."""
        if self.take("COLLATE"):
            self.name()
            return t.Collate()
        if self.take("ISNULL") or self.take("NOTNULL") or self.take("NOT", "NULL"):
            return t.NullTest()
        if self.take("IN") or self.take("NOT", "IN"):
            return self.in_set()
        return None

    def in_set(self):
        """What stands behind IN."""
        if self.take_sign("("):
            if self.word() in SELECTS:
                found = t.Subquery(self.select())
            else:
                found = t.Exprs(self.opt_exprs())
            self.need_sign(")")
            return found
        if self.is_name() and self.sign(1) == "(":
            name = self.name()
            return t.InFunction(name, self.in_parens(self.opt_exprs))
        return t.InObject(self.object())

    def operand(self):
        """One operand."""
        kind, word = self.kind(), self.word()
        if self.sign() == "(" or word == "EXISTS":
            return self.parens()
        if word == "CASE":
            return self.case()
        if word == "CAST":
            return self.cast()
        if word == "RAISE":
            return self.raise_()
        if kind in NUMBERS or kind == "Blob" or word == "NULL" or word in TIMES:
            self.at += 1
            return t.Literal(None)
        if self.is_name() and self.sign(1) == "(":
            return self.call()
        if kind == "Str" and self.sign(1) != ".":
            self.at += 1
            return t.Literal(self.at - 1)
        return self.column_use()

    def parens(self):
        """Expressions or a select in parentheses."""
        exists = self.take("EXISTS")
        self.need_sign("(")
        if exists or self.word() in SELECTS:
            found = t.Subquery(self.select())
        else:
            found = t.Exprs(self.commas(self.expr), True)
        self.need_sign(")")
        return found

    def column_use(self):
        """A name of one token, of two or of three."""
        names = [self.name()]
        while self.sign() == "." and len(names) < 3:
            self.at += 1
            names.append(self.name())
        return t.ColumnUse(names)

    def case(self):
        """CASE .. END."""
        self.need("CASE")
        exprs = [] if self.has("WHEN") else [self.expr()]
        while True:
            self.need("WHEN")
            exprs.append(self.expr())
            self.need("THEN")
            exprs.append(self.expr())
            if not self.has("WHEN"):
                break
        if self.take("ELSE"):
            exprs.append(self.expr())
        self.need("END")
        return t.Exprs(exprs)

    def cast(self):
        """CAST(expr AS type)."""
        self.need("CAST")
        self.need_sign("(")
        expr = self.expr()
        self.need("AS")
        self.opt_type()
        self.need_sign(")")
        return t.Exprs([expr])

    def raise_(self):
        """RAISE with its action."""
        self.need("RAISE")
        self.need_sign("(")
        exprs = []
        if not self.take("IGNORE"):
            self.need_any(ACTIONS)
            self.need_sign(",")
            exprs.append(self.expr())
        self.need_sign(")")
        return t.Exprs(exprs)

    def call(self):
        """A function's call, with FILTER and OVER."""
        self.name()
        self.need_sign("(")
        exprs = []
        if self.sign() == "*" and self.sign(1) == ")":
            self.at += 1
        elif self.sign() != ")":
            self.take("DISTINCT")
            exprs += self.commas(self.expr)
            if self.take("ORDER", "BY"):
                exprs += self.commas(self.term)
        self.need_sign(")")
        if self.take("FILTER"):
            self.need_sign("(")
            self.need("WHERE")
            exprs.append(self.expr())
            self.need_sign(")")
        if self.take("OVER"):
            if self.sign() == "(":
                exprs += self.window()
            else:
                self.name()
        return t.Call(exprs)

    def term(self):
        """A term of ORDER BY."""
        expr = self.expr()
        self.take_any(("ASC", "DESC"))
        if self.take("NULLS"):
            self.need_any(("FIRST", "LAST"))
        return expr

    def window(self):
        """A window in parentheses: its expressions."""
        self.need_sign("(")
        exprs = []
        if self.is_name() and self.word() not in NO_WINDOW_NAMES:
            self.name()
        if self.take("PARTITION"):
            self.need("BY")
            exprs += self.commas(self.expr)
        if self.take("ORDER"):
            self.need("BY")
            exprs += self.commas(self.term)
        if self.take_any(("RANGE", "ROWS", "GROUPS")):
            exprs += self.frame()
        self.need_sign(")")
        return exprs

    def frame(self):
        """The extent of a frame and what it excludes: its expressions."""
        if self.take("BETWEEN"):
            exprs = self.bound()
            self.need("AND")
            exprs = exprs + self.bound()
        else:
            exprs = self.bound()
        if self.take("EXCLUDE"):
            if not (self.take("NO", "OTHERS") or self.take("CURRENT", "ROW")):
                self.need_any(("GROUP", "TIES"))
        return exprs

    def bound(self):
        """A bound of a frame: its expression, in a list."""
        if self.take("CURRENT"):
            self.need("ROW")
            return []
        exprs = [] if self.take("UNBOUNDED") else [self.expr()]
        self.need_any(("PRECEDING", "FOLLOWING"))
        return exprs

    # types

    def is_type_name(self):
        """Whether a name of a type stands here."""
        if self.has("GENERATED", "ALWAYS"):
            return False
        return self.is_name() and self.word() not in JOIN_WORDS

    def opt_type(self):
        """Passes a type, if one stands here."""
        if not self.is_type_name():
            return
        while self.is_type_name():
            self.at += 1
        if self.take_sign("("):
            self.signed()
            if self.take_sign(","):
                self.signed()
            self.need_sign(")")

    def signed(self):
        """A number with a sign or none."""
        if self.sign() in ("+", "-"):
            self.at += 1
        if self.kind() not in NUMBERS:
            raise Syntax
        self.at += 1

    # sources

    def opt_alias(self):
        """An alias, with AS or without, or None."""
        if self.take("AS"):
            return self.name()
        if self.is_name() and self.word() not in NO_ALIASES:
            return self.name()
        return None

    def sources(self):
        """A source and those joined to it."""
        first = self.source()
        joined = []
        while True:
            natural = self.at if self.has("NATURAL") else None
            if not self.take_join():
                return t.Sources(first, joined)
            source = self.source()
            on = using = None
            if self.take("ON"):
                on = self.expr()
            elif self.take("USING"):
                using = self.names_in_parens()
            joined.append(t.Joined(natural, source, on, using))

    def take_join(self):
        """Passes a join, if one stands here."""
        if self.take_sign(","):
            return True
        found = self.take("NATURAL")
        if self.take_any(SIDES):
            found = True
            self.take("OUTER")
        elif self.take_any(("INNER", "CROSS")):
            found = True
        if found:
            self.need("JOIN")
            return True
        return self.take("JOIN")

    def source(self):
        """One source."""
        first = self.at
        if self.take_sign("("):
            if self.word() in SELECTS:
                select = self.select()
                self.need_sign(")")
                return t.SelectSource(first, select, self.opt_alias())
            inner = self.sources()
            self.need_sign(")")
            return t.GroupSource(inner)
        if self.is_name() and self.sign(1) == "(":
            name = self.name()
            args = self.in_parens(self.opt_exprs)
            return t.FunctionSource(name, args, self.opt_alias())
        names = self.object()
        alias = self.opt_alias()
        indexed = None
        if self.take("INDEXED"):
            self.need("BY")
            indexed = self.name()
        elif self.take("NOT"):
            self.need("INDEXED")
        return t.ObjectSource(names, alias, indexed)

    # selects

    def select(self):
        """A select with its WITH, ORDER BY and LIMIT."""
        ctes = []
        if self.take("WITH"):
            self.take("RECURSIVE")
            ctes = self.commas(self.cte)
        arms = [self.arm()]
        while self.has("UNION") or self.has("EXCEPT") or self.has("INTERSECT"):
            union = self.has("UNION")
            self.at += 1
            if union:
                self.take("ALL")
            arms.append(self.arm())
        order = limit = []
        if self.take("ORDER"):
            self.need("BY")
            order = self.commas(self.term)
        if self.take("LIMIT"):
            limit = [self.expr()]
            if self.take("OFFSET") or self.take_sign(","):
                limit.append(self.expr())
        return t.Select(ctes, arms, order, limit)

    def cte(self):
        """One name of a WITH with its body."""
        name = self.name()
        columns = self.opt_names()
        self.need("AS")
        if self.take("NOT"):
            self.need("MATERIALIZED")
        else:
            self.take("MATERIALIZED")
        return t.Cte(name, columns, self.in_parens(self.select))

    def arm(self):
        """One arm: SELECT or VALUES."""
        first = self.at
        if self.take("VALUES"):
            return t.ValuesArm(first, self.commas(self.row))
        self.need("SELECT")
        self.take_any(("DISTINCT", "ALL"))
        items = self.commas(self.item)
        sources = self.sources() if self.take("FROM") else None
        where = [self.expr()] if self.take("WHERE") else []
        group, having, windows = [], [], []
        if self.take("GROUP"):
            self.need("BY")
            group = self.commas(self.expr)
        if self.take("HAVING"):
            having = [self.expr()]
        if self.take("WINDOW"):
            windows = [expr for exprs in self.commas(self.named_window) for expr in exprs]
        return t.SelectArm(first, items, sources, where, group, having, windows)

    def row(self):
        """A row of VALUES."""
        first = self.at
        return first, self.in_parens(lambda: self.commas(self.expr))

    def named_window(self):
        """A window with its name: its expressions."""
        self.name()
        self.need("AS")
        return self.window()

    def item(self):
        """A result item."""
        if self.take_sign("*"):
            return t.Item()
        if self.is_name() and self.sign(1) == "." and self.sign(2) == "*" and self.word() not in NO_USES:
            name = self.name()
            self.at += 2
            return t.Item(star_of=name)
        expr = self.expr()
        return t.Item(expr, self.opt_alias())
