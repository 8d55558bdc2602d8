#!/usr/bin/env python3
"""machine.py FILE LISTING [NAME=VALUE ..] [--elements N] [--steps N]: runs a graph, and prints the trace of that run.

LISTING is what `idc graph FILE` prints. This machine is written from docs/RUNTIMES.md and the pages that it names, and
shares nothing with idc. Its elements, one where nothing else is said, take turns, and each handles the newest of its
messages first. It ends where no message is left, behind a fault, or after so many messages, a million where nothing
else is said. It prints each event as it comes to pass, for `idc judge` to look at, and for
`tools/check-trace`.
"""
import argparse, collections, operator, re, signal

LEAST, MOST = -(2**63), 2**63 - 1
LARGEST = 1000000  # the most cells of a structure
ONE_PORT = {"const", "neg", "not", "merge", "enter", "next", "reset", "fetch"}
SIGNAL = "signal"

Context = collections.namedtuple("Context", "element number")
Structure = collections.namedtuple("Structure", "element number low high")
Cell = collections.namedtuple("Cell", "structure index")
Tag = collections.namedtuple("Tag", "context iteration instr")
Token = collections.namedtuple("Token", "tag port value")
Read = collections.namedtuple("Read", "cell reply")
Write = collections.namedtuple("Write", "cell value origin")
MAIN = Context(0, 0)


class Fault(Exception):
    """An operator has no result, or a cell has a value already."""


class Instr:
    """A line of the listing: NUMBER OPERATOR WORDS @LINE:COLUMN -> DESTINATIONS | DESTINATIONS."""

    def __init__(self, line):
        head, _, tail = line.partition(" ->")
        head, _, place = head.partition(" @")
        self.op, *self.words = head.split()[1:]
        self.place = tuple(map(int, place.split(":")))
        sides = [[tuple(map(int, to.split("."))) for to in side.split()] for side in tail.split("|")]
        self.dests, self.others = sides[0], sides[-1]


def main_block(graph):
    """The first instruction of main's block."""
    return next(n for n in range(1, len(graph)) if graph[n].place == graph[0].place)


def value_of(word):
    return word == "true" if word in ("true", "false") else int(word)


# ---- what a trace shows


def shown_tag(tag):
    return f"{tag.context.element}.{tag.context.number}#{tag.iteration}"


def shown(value):
    if isinstance(value, bool):
        return str(value).lower()
    if isinstance(value, Structure):
        return f"s{value.element}.{value.number}"
    if isinstance(value, Cell):
        return f"{shown(value.structure)}[{value.index}]"
    if isinstance(value, Context):
        return f"c{value.element}.{value.number}"
    if isinstance(value, Tag):
        return f"k{shown_tag(value)}:{value.instr}"
    return str(value)


def shown_message(it):
    if isinstance(it, Token):
        return f"token c{shown_tag(it.tag)} {it.tag.instr}.{it.port} {shown(it.value)}"
    if isinstance(it, Read):
        return f"read {shown(it.cell)} c{shown_tag(it.reply)} {it.reply.instr}"
    return f"write {shown(it.cell)} {shown(it.value)} c{shown_tag(it.origin)} {it.origin.instr}"


# ---- what operators give


def checked(number):
    if not LEAST <= number <= MOST:
        raise Fault
    return number


def quotient(a, b):
    """The quotient without its fraction."""
    if b == 0:
        raise Fault
    return checked(abs(a) // abs(b) * (1 if (a < 0) == (b < 0) else -1))


def made_cell(structure, index):
    if not structure.low <= index <= structure.high:
        raise Fault
    return Cell(structure, index)


RESULTS = {
    "neg": lambda a: checked(-a),
    "not": operator.not_,
    "add": lambda a, b: checked(a + b),
    "sub": lambda a, b: checked(a - b),
    "mul": lambda a, b: checked(a * b),
    "div": quotient,
    "rem": lambda a, b: a - b * quotient(a, b),
    "eqb": operator.eq,
    "neb": operator.ne,
    "and": operator.and_,
    "or": operator.or_,
    "address": made_cell,
    **{name: getattr(operator, name) for name in ("lt", "le", "gt", "ge", "eq", "ne")},
    **{name: lambda *operands: operands[-1] for name in ("merge", "next", "reset", "switch")},
}


class Element:
    """What one element has counted, what waits there, and what it is yet to handle."""

    def __init__(self, number, graph):
        self.number, self.graph = number, graph
        self.stamp = self.contexts = self.structures = 0
        self.waiting, self.cells, self.inbox = {}, {}, []

    def handle(self):
        """Handles the newest message: the line of the event, what it sends, and whether it is a fault."""
        message, sent_at = self.inbox.pop()
        self.stamp = max(self.stamp, sent_at) + 1
        line = f"{self.stamp} {self.number} {shown_message(message)}"
        try:
            return line, {Token: self.token, Read: self.read, Write: self.write}[type(message)](message), False
        except Fault:
            return line + " fault", [], True

    def token(self, it):
        instr = self.graph[it.tag.instr]
        if instr.op in ONE_PORT:
            return self.fired(instr, it.tag, it.value)
        if it.tag not in self.waiting:
            self.waiting[it.tag] = it.value
            return []
        first = self.waiting.pop(it.tag)
        return self.fired(instr, it.tag, *((it.value, first) if it.port == 0 else (first, it.value)))

    def read(self, it):
        found = self.cells.setdefault(it.cell, [])
        if not isinstance(found, list):
            return [Token(it.reply, 0, found)]
        found.append(it.reply)
        return []

    def write(self, it):
        found = self.cells.get(it.cell, [])
        if not isinstance(found, list):
            raise Fault
        self.cells[it.cell] = it.value
        return [Token(reply, 0, it.value) for reply in found]

    def fired(self, instr, tag, *operands):
        """What an instruction sends that fires on these operands."""
        op, words, iteration, dests, sent = instr.op, instr.words, tag.iteration, instr.dests, []
        if op == "back":
            return [Token(operands[0], 0, operands[1])]
        if op == "send":
            return [Token(Tag(operands[0], 0, int(words[1])), 0, operands[1])]
        if op == "fetch":
            return [Read(operands[0], Tag(tag.context, iteration, int(words[-1])))]
        if op == "store":
            return [Write(operands[0], operands[1], tag)]
        if op == "const":
            value = value_of(words[0])
        elif op == "enter":
            self.contexts += 1
            value, (block, reply) = Context(self.number, self.contexts), map(int, words)
            start = SIGNAL, Tag(tag.context, iteration, reply)
            sent = [Token(Tag(value, 0, block + n), 0, it) for n, it in enumerate(start)]
        elif op == "alloc":
            if not operands[0] - 1 <= operands[1] < operands[0] + LARGEST:
                raise Fault
            self.structures += 1
            value = Structure(self.number, self.structures, *operands)
        else:
            value = RESULTS[op](*operands)
        if op == "switch" and not operands[0]:
            dests = instr.others
        elif op in ("next", "reset"):
            iteration = iteration + 1 if op == "next" else 0
        return [Token(Tag(tag.context, iteration, to), port, value) for to, port in dests] + sent


class Machine:
    def __init__(self, graph, inputs, count):
        self.elements = [Element(number, graph) for number in range(count)]
        start = enumerate([SIGNAL, Tag(MAIN, 0, 0), *inputs], main_block(graph))
        self.send([Token(Tag(MAIN, 0, n), 0, value) for n, value in start], 0)

    def send(self, messages, stamp):
        for it in messages:
            if isinstance(it, Token):
                number = it.tag.context.element + it.tag.context.number + it.tag.iteration
            else:
                structure = it.cell.structure
                number = structure.element + structure.number + it.cell.index - structure.low
            self.elements[number % len(self.elements)].inbox.append((it, stamp))

    def run(self, steps):
        """The lines of the events, one after another."""
        while any(it.inbox for it in self.elements):
            for element in filter(lambda it: it.inbox, self.elements):
                if steps == 0:
                    return
                line, sent, failed = element.handle()
                yield line
                if failed:
                    return
                self.send(sent, element.stamp)
                steps -= 1


def inputs_of(text, graph, words):
    """The inputs in the order of main's entries, each of which has the place of its parameter's name."""
    given, first = dict(word.split("=", 1) for word in words), main_block(graph) + 2
    places = [it.place for it in graph[first : first + len(given)]]
    names = [re.match("[A-Za-z_0-9]*", text.split("\n")[line - 1][column - 1 :])[0] for line, column in places]
    return [value_of(given[name]) for name in names]


def main():
    words = argparse.ArgumentParser(description=__doc__, formatter_class=argparse.RawDescriptionHelpFormatter)
    words.add_argument("file", type=argparse.FileType(encoding="utf-8"))
    words.add_argument("listing", type=argparse.FileType())
    words.add_argument("inputs", nargs="*")
    words.add_argument("--elements", type=int, default=1)
    words.add_argument("--steps", type=int, default=1000000)
    asked = words.parse_intermixed_args()
    graph = [Instr(line) for line in asked.listing]
    for line in Machine(graph, inputs_of(asked.file.read(), graph, asked.inputs), asked.elements).run(asked.steps):
        print(line)


if __name__ == "__main__":
    signal.signal(signal.SIGPIPE, signal.SIG_DFL)
    main()
