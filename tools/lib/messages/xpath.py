"""Reads expressions of XPath 1.0 as far as messages need: where one stops, and what it refers to."""

from __future__ import annotations

import re
from dataclasses import dataclass, field

NAME = r"[^\W\d][\w.\-\u00b7]*"
TOKEN = re.compile(
    rf"""(?P<literal>"[^"]*"|'[^']*')|(?P<number>\d+(?:\.\d*)?|\.\d+)"""
    rf"""|(?P<symbol>\.\.|::|//|!=|<=|>=|[()\[\].@,/|+\-=<>*$])|(?P<name>{NAME}(?::(?!:)(?:{NAME}|\*))?)"""
)
SPACE = re.compile(r"[ \t\r\n]*")
LEVELS = [{"or"}, {"and"}, {"=", "!="}, {"<", "<=", ">", ">="}, {"+", "-"}, {"*", "div", "mod"}]
ARITHMETIC = 4  # the first level of it
NODE_TYPES = {"comment", "text", "processing-instruction", "node"}
AXES = set(
    "ancestor ancestor-or-self attribute child descendant descendant-or-self following following-sibling "
    "namespace parent preceding preceding-sibling self".split()
)


class NoExpression(Exception):
    """Where a text stops being an expression, and why."""

    def __init__(self, place, reason):
        super().__init__(reason)
        self.place, self.reason = place, reason


@dataclass
class Token:
    kind: str
    text: str
    place: int


@dataclass
class Call:
    """A call of a function: its name, where it begins, and its arguments, each with its place."""

    name: str
    place: int
    arguments: list = field(default_factory=list)

    @property
    def count(self):
        return len(self.arguments)


@dataclass
class Expression:
    """What an expression refers to, each name with its place."""

    variables: list = field(default_factory=list)
    calls: list = field(default_factory=list)
    names: list = field(default_factory=list)  # of nodes
    elements: list = field(default_factory=list)  # of these the names of elements, each with whether it is in a predicate
    numbers: list = field(default_factory=list)
    operators: list = field(default_factory=list)  # of arithmetic
    parts: list = field(default_factory=list)  # of a value template, each with whether it is an expression
    fault: NoExpression | None = None


def read(text, place=0):
    """Reads an expression that begins at a place of a text that ends with it."""
    made = Expression()
    try:
        Reader(text, place, made).whole()
    except NoExpression as fault:
        made.fault = fault
    except RecursionError:
        pass  # far past the 64 brackets that may be open
    return made


def read_template(text):
    """Reads the expressions of a value template."""
    made, place = Expression(), 0
    try:
        while place < len(text):
            pair, begin = text[place : place + 2], place
            if pair in ("{{", "}}"):
                place += 2
            elif pair[0] == "}":
                raise NoExpression(place, "a } without a {")
            elif pair[0] == "{":
                place = Reader(text, place + 1, made).part()
            else:
                place += 1
            is_expression = pair[0] == "{" and pair != "{{"
            made.parts.append((is_expression, text[begin + 1 : place - 1] if is_expression else pair[0]))
    except NoExpression as fault:
        made.fault = fault
    return made


class Reader:
    """Reads one expression by the grammar of XPath 1.0, from left to right."""

    def __init__(self, text, place, made):
        self.text, self.made, self.end, self.depth = text, made, place, 0
        self.token = None
        self.step()

    def step(self):
        """Goes to the next token."""
        place = SPACE.match(self.text, self.end).end()
        found = TOKEN.match(self.text, place)
        if found:
            self.token, self.end = Token(found.lastgroup, found[0], place), found.end()
        elif place == len(self.text):
            self.token, self.end = Token("end", "", place), place
        else:
            self.token, self.end = Token("other", self.text[place], place), place

    def stop(self, expected):
        """The text is no expression here."""
        token = self.token
        if token.kind == "other" and token.text in "\"'":
            raise NoExpression(token.place, "the quote is not closed")
        if token.kind == "end":
            raise NoExpression(token.place, f"it ends where {expected} is expected")
        raise NoExpression(token.place, f"{token.text} where {expected} is expected")

    def take(self, text, expected=None):
        """Passes over a symbol that has to be here."""
        if self.token.text != text or self.token.kind not in ("symbol", "name"):
            self.stop(expected or text)
        self.step()

    def is_symbol(self, *texts):
        return self.token.kind == "symbol" and self.token.text in texts

    def next_is(self, *texts):
        """Whether a symbol follows the token."""
        place = SPACE.match(self.text, self.end).end()
        found = TOKEN.match(self.text, place)
        return bool(found) and found[0] in texts

    def whole(self):
        self.operators(0)
        if self.token.kind != "end":
            self.stop("an operator or the end")

    def part(self):
        """An expression in a value template: the place after its brace."""
        self.operators(0)
        if self.token.text != "}":
            self.stop("}")
        return self.token.place + 1

    def operators(self, level):
        """Operands and the operators between them, of this level and above."""
        if level == len(LEVELS):
            self.unary()
            return
        self.operators(level + 1)
        while self.token.kind in ("symbol", "name") and self.token.text in LEVELS[level]:
            if level >= ARITHMETIC:
                self.made.operators.append((self.token.text, self.token.place))
            self.step()
            self.operators(level + 1)

    def unary(self):
        while self.is_symbol("-"):
            self.step()
        self.path()
        while self.is_symbol("|"):
            self.step()
            self.path()

    def path(self):
        if self.is_primary():
            self.primary()
            self.predicates()
            if not self.is_symbol("/", "//"):
                return
        elif self.is_symbol("/"):
            self.step()
            if not self.begins_step():
                return
            self.steps()
            return
        elif not self.is_symbol("//"):
            self.steps()
            return
        self.step()
        self.steps()

    def is_primary(self):
        token = self.token
        is_call = token.kind == "name" and token.text not in NODE_TYPES and self.next_is("(")
        return token.kind in ("literal", "number") or self.is_symbol("$", "(") or is_call

    def primary(self):
        token = self.token
        if token.kind == "number":
            self.made.numbers.append((token.text, token.place))
        if token.kind in ("number", "literal"):
            self.step()
        elif self.is_symbol("$"):
            self.step()
            if self.token.kind != "name":
                self.stop("the name of a variable")
            self.made.variables.append((self.token.text, token.place))
            self.step()
        elif self.is_symbol("("):
            self.step()
            self.operators(0)
            self.take(")")
        else:
            self.call()

    def call(self):
        made = Call(self.token.text, self.token.place)
        self.made.calls.append(made)
        self.step()
        self.take("(")
        while not self.is_symbol(")"):
            if made.arguments:
                self.take(",", ", or )")
            begin = self.token.place
            self.operators(0)
            made.arguments.append((self.text[begin : self.token.place].rstrip(), begin))
        self.step()

    def predicates(self):
        while self.is_symbol("["):
            self.step()
            self.depth += 1
            self.operators(0)
            self.depth -= 1
            self.take("]")

    def begins_step(self):
        return self.token.kind == "name" or self.is_symbol(".", "..", "@", "*")

    def steps(self):
        self.one_step()
        while self.is_symbol("/", "//"):
            self.step()
            self.one_step()

    def one_step(self):
        if self.is_symbol(".", ".."):
            self.step()
            return
        axis = "child"
        if self.is_symbol("@"):
            axis = "attribute"
            self.step()
        elif self.token.kind == "name" and self.next_is("::"):
            axis = self.token.text
            if axis not in AXES:
                self.stop("an axis")
            self.step()
            self.step()
        self.node_test(axis not in ("attribute", "namespace"))
        self.predicates()

    def node_test(self, is_element):
        token = self.token
        if token.kind != "name" and not self.is_symbol("*"):
            self.stop("a step" if self.begins_step() else "an expression")
        self.step()
        if token.kind == "name" and token.text in NODE_TYPES and self.is_symbol("("):
            self.step()
            if token.text == "processing-instruction" and self.token.kind == "literal":
                self.step()
            self.take(")")
        elif token.kind == "name":
            self.made.names.append((token.text, token.place))
            self.made.elements += [(token.text, token.place, self.depth > 0)] if is_element else []
