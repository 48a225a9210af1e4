"""Tokens of a text, by docs/grammar.md. A text is a str with a character for each byte (latin-1)."""

import re
from dataclasses import dataclass

WORD_BYTES = "A-Za-z0-9_$\x80-\xff"
BLANK = re.compile("[ \t\n\f\r]+")
NUMBERS = (
    ("Hex", re.compile("0[xX][0-9a-fA-F]+")),
    ("Float", re.compile(r"(?:[0-9]+\.[0-9]*|\.[0-9]+)(?:[eE][+-]?[0-9]+)?|[0-9]+[eE][+-]?[0-9]+")),
    ("Int", re.compile("[0-9]+")),
)
WORD = re.compile("[A-Za-z_\x80-\xff][" + WORD_BYTES + "]*")
WORD_BYTE = re.compile("[" + WORD_BYTES + "]")
BLOB = re.compile("[xX]'(?:[0-9a-fA-F]{2})*'")
QUOTED = {
    '"': ("Quoted", re.compile('"(?:[^"]|"")*"(?!")')),
    "`": ("Quoted", re.compile("`(?:[^`]|``)*`(?!`)")),
    "[": ("Quoted", re.compile(r"\[[^\]]*\]")),
    "'": ("Str", re.compile("'(?:[^']|'')*'(?!')")),
}
OPERATORS = re.compile(r"->>|->|==|<=|<>|<<|>=|>>|!=|\|\||[(),;.+\-*/%=<>&~|]")

RESERVED = frozenset(
    """ADD ALL ALTER AND AS AUTOINCREMENT BETWEEN CASE CHECK COLLATE COMMIT CONSTRAINT CREATE DEFAULT DEFERRABLE
    DELETE DISTINCT DROP ELSE ESCAPE EXCEPT EXISTS FOREIGN FROM GROUP HAVING IN INDEX INSERT INTERSECT INTO IS ISNULL
    JOIN LIMIT NOT NOTHING NOTNULL NULL ON OR ORDER PRIMARY REFERENCES RETURNING SELECT SET TABLE THEN TO TRANSACTION
    UNION UNIQUE UPDATE USING VALUES WHEN WHERE""".split()
)
JOIN_WORDS = frozenset("CROSS FULL INDEXED INNER LEFT NATURAL OUTER RIGHT".split())

UPPER = {code: code - 32 for code in range(ord("a"), ord("z") + 1)}
LOWER = {code: code + 32 for code in range(ord("A"), ord("Z") + 1)}


def upper(word):
    """The word with its ASCII letters in upper case."""
    return word.translate(UPPER)


def fold(name):
    """The name with its ASCII letters in lower case: equal names fold to the same."""
    return name.translate(LOWER)


@dataclass(frozen=True)
class Token:
    """A token: its kind, the offset of its first byte, and its bytes."""

    kind: str
    at: int
    text: str

    def word(self):
        """The upper-case letters of a Word, else nothing."""
        return upper(self.text) if self.kind == "Word" else ""

    def spells(self):
        """The name that a Word, Quoted or Str spells."""
        if self.kind == "Word":
            return self.text
        sign, inner = self.text[0], self.text[1:-1]
        return inner if sign == "[" else inner.replace(sign + sign, sign)

    def is_name(self):
        """Whether it may stand where a name is asked for."""
        return self.kind in ("Quoted", "Str") or (self.kind == "Word" and upper(self.text) not in RESERVED)


def token_at(text, at):
    """The token that begins at this offset, or None where the byte is bad."""
    number = _number(text, at)
    if number is not None:
        return number or None
    first = text[at]
    if first in QUOTED:
        kind, form = QUOTED[first]
        found = form.match(text, at)
        return Token(kind, at, found.group()) if found else None
    if text[at:at + 2] in ("x'", "X'"):
        found = BLOB.match(text, at)
        return Token("Blob", at, found.group()) if found else None
    for kind, form in (("Word", WORD), ("Op", OPERATORS)):
        found = form.match(text, at)
        if found:
            return Token(kind, at, found.group())
    return None


def _number(text, at):
    """The number at this offset; None where none begins there, False where a byte of a Word follows it."""
    for kind, form in NUMBERS:
        found = form.match(text, at)
        if found:
            return False if WORD_BYTE.match(text, found.end()) else Token(kind, at, found.group())
    return None


def tokens(text):
    """All tokens before the first bad place, and that place or None."""
    found, at = [], 0
    while at < len(text):
        blank = BLANK.match(text, at)
        if blank:
            at = blank.end()
        elif text.startswith("--", at):
            end = text.find("\n", at)
            at = len(text) if end < 0 else end
        elif text.startswith("/*", at):
            end = text.find("*/", at + 2)
            at = len(text) if end < 0 else end + 2
        else:
            token = token_at(text, at)
            if token is None:
                return found, at
            found.append(token)
            at += len(token.text)
    return found, None


def first_too_deep(found):
    """The offset of the first token behind which more than 100 levels are open, or None."""
    levels = []
    for token in found:
        if token.text == "(":
            levels.append("(")
        elif token.word() == "CASE":
            levels.append("CASE")
        elif token.text == ")":
            if "(" in levels:
                while levels.pop() != "(":
                    pass
        elif token.word() == "END" and levels and levels[-1] == "CASE":
            levels.pop()
        if len(levels) > 100:
            return token.at
    return None
