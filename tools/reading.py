"""A text's tokens and tree, by the grammar of docs/LANGUAGE.md, for the tools. No claim rests on it.

Places are bytes from 0, in a text that is read as bytes.
"""
import re

RESERVED = set(
    "def if then else while do next finally in true false int bool array div rem and or not for to".split()
)
PIECE = re.compile(rb"[ \t\r\n]+|%[^\n]*|[A-Za-z_][A-Za-z_0-9]*|[0-9]+|==|<>|<=|>=|<-|[(){}\[\],;:=<>+*-]")
KINDS = ("int", "bool", "array")
COMPARISONS = ("==", "<>", "<", "<=", ">", ">=")
END = "the end"


class Refused(Exception):
    """The token at which no program goes on, by its number."""

    def __init__(self, number):
        self.number = number


class Token:
    """A token: its kind, which is "name", "number", END or its spelling; its spelling and its place."""

    def __init__(self, kind, text, at):
        self.kind, self.text, self.at = kind, text, at


class Node:
    """A thing of the text: its form, its place, its name where it has one, its parts and its statements."""

    def __init__(self, form, at, name=None, parts=(), statements=(), params=(), kind=None):
        self.form, self.at, self.name, self.kind = form, at, name, kind
        self.parts, self.statements, self.params = list(parts), list(statements), list(params)

    def below(self):
        return self.params + self.statements + self.parts


def tokens_of(text):
    """The tokens up to the end, or up to the first byte that begins none."""
    found, at = [], 0
    while at < len(text):
        piece = PIECE.match(text, at)
        if not piece:
            break
        word = piece.group().decode()
        if not (word.isspace() or word[0] == "%"):
            kind = "number" if word[0].isdigit() else word
            if word not in RESERVED and (word[0].isalpha() or word[0] == "_"):
                kind = "name"
            found.append(Token(kind, word, at))
        at = piece.end()
    return found + [Token(END, "", at)]


class Parser:
    """One function for each production; each stops at the first token after which no program goes on."""

    def __init__(self, tokens):
        self.tokens, self.number = tokens, 0

    @property
    def here(self):
        return self.tokens[self.number]

    @property
    def kind(self):
        return self.here.kind

    def take(self, *kinds):
        if self.kind not in kinds:
            raise Refused(self.number)
        self.number += 1
        return self.tokens[self.number - 1]

    def program(self):
        found = []
        while self.kind == "def" or not found and self.kind == END:
            if self.kind == END:
                return Node("program", 0)
            found.append(self.definition())
        self.take(END)
        return Node("program", 0, parts=found)

    def definition(self):
        self.take("def")
        name, params = self.take("name"), []
        self.take("(")
        if self.kind != ")":
            params.append(self.param())
            while self.kind == ",":
                self.take(",")
                params.append(self.param())
        self.take(")")
        self.take(":")
        kind = self.kind_word()
        self.take("=")
        body = self.expr()
        self.take(";")
        return Node("definition", name.at, name.text, [body], params=params, kind=kind)

    def param(self):
        name = self.take("name")
        self.take(":")
        return Node("parameter", name.at, name.text, kind=self.kind_word())

    def kind_word(self):
        """A kind: `array array` is one too."""
        kind = self.take(*KINDS).text
        return f"{kind} {self.take('array').text}" if kind == self.kind == "array" else kind

    def expr(self):
        if self.kind != "if":
            return self.level(0)
        head = self.take("if")
        predicate = self.expr()
        self.take("then")
        chosen = self.expr()
        self.take("else")
        return Node("conditional", head.at, "if", [predicate, chosen, self.expr()])

    LEVELS = (("or",), ("and",), None, COMPARISONS, ("+", "-"), ("*", "div", "rem"))

    def level(self, depth):
        if depth == len(self.LEVELS):
            return self.unary()
        if self.LEVELS[depth] is None:
            if self.kind == "not":
                head = self.take("not")
                return Node("unary", head.at, "not", [self.level(depth)])
            return self.level(depth + 1)
        left = self.level(depth + 1)
        while self.kind in self.LEVELS[depth]:
            sign = self.take(*self.LEVELS[depth])
            left = Node("binary", sign.at, sign.text, [left, self.level(depth + 1)])
            if depth == 3:
                break
        return left

    def unary(self):
        if self.kind == "-":
            head = self.take("-")
            return Node("unary", head.at, "-", [self.unary()])
        found = self.atom()
        while self.kind == "[":
            head = self.take("[")
            found = Node("fetch", head.at, "[", [found, self.expr()])
            self.take("]")
        return found

    def atom(self):
        head = self.take("number", "true", "false", "name", "array", "(", "{")
        if head.kind in ("number", "true", "false"):
            return Node("literal", head.at, head.text)
        if head.kind == "(":
            found = self.expr()
            self.take(")")
            return found
        if head.kind == "array":
            if self.kind == "array":
                self.take("array")
            self.take("(")
            low = self.expr()
            self.take(",")
            high = self.expr()
            self.take(")")
            return Node("array", head.at, "array", [low, high])
        if head.kind == "{":
            inside = {"while": self.loop, "for": self.count}.get(self.kind, self.block)
            return inside(head)
        if self.kind != "(":
            return Node("name", head.at, head.text)
        self.take("(")
        found = []
        if self.kind != ")":
            found.append(self.expr())
            while self.kind == ",":
                self.take(",")
                found.append(self.expr())
        self.take(")")
        return Node("call", head.at, head.text, found)

    def block(self, head):
        statements = []
        while self.kind == "name":
            statements.append(self.statement())
        self.take("in")
        body = self.expr()
        self.take("}")
        return Node("block", head.at, "{", [body], statements)

    def loop(self, head):
        self.take("while")
        predicate = self.expr()
        statements, last = self.turns()
        return Node("loop", head.at, "{", [predicate, last], statements)

    def count(self, head):
        self.take("for")
        name = self.take("name")
        self.take("<-")
        low = self.expr()
        self.take("to")
        high = self.expr()
        statements, last = self.turns()
        return Node("for", head.at, "{", [low, high, last], statements, [Node("index", name.at, name.text)])

    def turns(self):
        """What a loop has behind its predicate or its bounds: its statements, and its last expression."""
        statements = []
        self.take("do")
        while self.kind in ("name", "next"):
            statements.append(self.next() if self.kind == "next" else self.statement())
        self.take("finally")
        last = self.expr()
        self.take("}")
        return statements, last

    def next(self):
        head = self.take("next")
        name = self.take("name").text
        self.take("=")
        return self.ended(Node("next", head.at, name, [self.expr()]))

    def statement(self):
        name = self.take("name")
        if self.kind == "[":
            target = Node("name", name.at, name.text)
            head = self.take("[")
            index = self.expr()
            self.take("]")
            if self.kind == "[":
                target = Node("fetch", head.at, "[", [target, index])
                head = self.take("[")
                index = self.expr()
                self.take("]")
            self.take("=")
            return self.ended(Node("store", head.at, "[", [target, index, self.expr()]))
        if self.kind != "=":
            raise Refused(self.number)
        self.take("=")
        return self.ended(Node("binding", name.at, name.text, [self.expr()]))

    def ended(self, node):
        self.take(";")
        return node


def tree_of(text):
    """The tree of a text; raises Refused."""
    return Parser(tokens_of(text)).program()


EACH = sorted(RESERVED) + "( ) { } [ ] , ; : = == <> < <= > >= <- + - *".split() + ["name", "number", END]


def expected(tokens, number):
    """The kinds of tokens with which a program goes on behind the first so many."""
    found = []
    for kind in EACH:
        try:
            Parser(tokens[:number] + [Token(kind, "", 0), Token("nothing", "", 0)]).program()
            found.append(kind)
        except Refused as refused:
            if refused.number > number:
                found.append(kind)
        except IndexError:
            found.append(kind)
    return found


def walk(node, above=()):
    """Each thing of a tree, with the things round it, the innermost last."""
    yield node, above
    for part in node.below():
        yield from walk(part, above + (node,))


def outer_of(node):
    """Each thing of a tree, in the order of walk, and the one that it stands in, which costs less than walk."""
    found, left = {}, [(node, None)]
    while left:
        here, outer = left.pop()
        found[here] = outer
        left += [(part, here) for part in reversed(here.below())]
    return found


def round_it(node, outer):
    """The things round a thing, the innermost last, by what outer_of gives."""
    found = []
    while outer[node] is not None:
        node = outer[node]
        found.append(node)
    return tuple(reversed(found))


# What binds the name of a value.
BINDERS = ("binding", "next", "parameter", "index")


def bounds_of(node):
    """The parts of a loop that stand outside of it: the bounds of an index."""
    return node.parts[:2] if node.form == "for" else []


def scopes_of(node, above):
    """The scopes of a use, innermost first: lists of the binders that are seen there."""
    found, below = [], node
    for outer in reversed(above):
        if outer.form == "block":
            found.append([s for s in outer.statements if s.form == "binding"])
        elif outer.form in ("loop", "for") and below not in bounds_of(outer):
            if below in outer.statements and not (node.form == "next" and node is below):
                found.append(outer.params + [s for s in outer.statements if s.form != "store"])
            elif not (node.form == "next" and node is below):
                found.append([s for s in outer.statements if s.form == "next"])
        elif outer.form == "definition":
            found.append(outer.params)
        below = outer
    return found


def binder_of(node, above):
    """The binder that a use of a name, or the first value of a next, means, or None."""
    for scope in scopes_of(node, above):
        for binder in scope:
            if binder.name == node.name:
                return binder
    return None


def uses_of(program):
    """The binder, or None, that each use of a name, and the first value of each next, means: as binder_of, at once."""
    found = {}

    def meant(name, scopes):
        return next((scope[name] for scope in reversed(scopes) if name in scope), None)

    def seen(binders):
        return {it.name: it for it in reversed(binders)}

    def go(node, scopes):
        inside = scopes
        if node.form == "name":
            found[node] = meant(node.name, scopes)
        elif node.form in ("block", "definition"):
            own = node.params if node.form == "definition" else [it for it in node.statements if it.form == "binding"]
            inside = scopes + [seen(own)]
        elif node.form in ("loop", "for"):
            bounds = bounds_of(node)
            turns = [it for it in node.statements if it.form == "next"]
            found.update((it, meant(it.name, scopes)) for it in turns)
            body = scopes + [seen(node.params + [it for it in node.statements if it.form != "store"])]
            for it in node.statements:
                go(it, body)
            outer = scopes + [seen(turns)]
            for it in node.parts:
                go(it, scopes if it in bounds else outer)
            return
        for it in node.statements + node.parts:
            go(it, inside)

    for it in program.parts:
        go(it, [])
    return found


def line_col(text, at):
    """The line and column of a place."""
    start = text.rfind(b"\n", 0, at) + 1
    return text.count(b"\n", 0, at) + 1, at - start + 1


def place_at(text, line, column):
    """The place of a line and column."""
    at = 0
    for _ in range(line - 1):
        at = text.find(b"\n", at) + 1
    return at + column - 1
