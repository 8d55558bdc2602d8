"""The machine of docs/MACHINE.md, for the tools: a graph's messages, handled in any order. No claim rests on it.

A graph is read from what `idc graph FILE` prints. A run has the messages in flight in a list, and handles one of them
at a time, whichever a tool names. It keeps each event with the event that sent its message, so it tells afterwards
which events one event needed, and prints any of them as the lines of a trace. It goes on after a fault: an event that
fails sends nothing, so no other one needs it.

Of a run on several elements the elements show in the trace alone: which messages are in flight, and what each of them
gives, is the same on any number of them. So contexts and structures are things here, and get their numbers in a trace.
"""
import re, sys

import asking, reading

LEAST, MOST = -(2**63), 2**63 - 1
LARGEST = 1000000  # the most cells of a structure
ONE_PORT = {"const", "neg", "not", "merge", "enter", "next", "reset", "fetch"}
READ, WRITE = -1, -2  # in a message, in place of the instruction's number that a token has


class Unread(Exception):
    """Lines that are no listing of a graph with a main block."""


class Instr:
    """An instruction: its number, its operator with its words, its place, and its destinations on either side."""

    def __init__(self, line):
        head, arrow, tail = line.partition(" ->")
        words = head.split()
        at = next((i for i, word in enumerate(words) if re.fullmatch(r"@\d+:\d+", word)), 0)
        if not arrow or at < 2:
            raise Unread(line)
        self.number, self.op, self.args = int(words[0]), words[1], words[2:at]
        self.place = tuple(map(int, words[at][1:].split(":")))
        sides = [[tuple(map(int, word.split("."))) for word in side.split()] for side in tail.split("|")]
        self.yes, self.no = sides[0], sides[-1]
        self.two = self.op not in ONE_PORT
        self.fire = getattr(Run, "fire_" + self.op, Run.fire_operator)
        self.names = int(self.args[-1]) if self.op in ("enter", "send", "fetch") else None
        if self.op == "const":
            word = self.args[0]
            self.value = word == "true" if word in ("true", "false") else int(word)


    def is_input(self):
        """Whether this may be a parameter of main."""
        return self.op == "merge" and self.args[0] in ("int", "bool")


class Graph:
    """The instructions of a listing, the first one of main's block, and the places of main's inputs by number."""

    def __init__(self, listing):
        self.instrs = code = [Instr(line) for line in listing]
        if [it.number for it in code] != list(range(len(code))):
            raise Unread("the numbers don't go on by one")
        self.first = next((n for n in range(1, len(code) - 1) if self.is_main(n)), None)
        if self.first is None:
            raise Unread("there is no block of main")
        fed = {to for it in code for to, _ in it.yes + it.no} | {it.names for it in code if it.op in ("enter", "fetch")}
        self.inputs, number = {}, self.first + 2
        while number < len(code) and number not in fed and code[number].is_input():
            self.inputs[number] = code[number].place
            number += 1

    def is_main(self, number):
        """Whether main's block begins here: it has the place of the answer."""
        return self.instrs[number].place == self.instrs[0].place and self.instrs[number + 1].op == "back"


class Context:
    """The context of a call or a loop: the tag and the place that it was entered at, and whether it is a loop's."""

    __slots__ = "above", "turn", "place", "loops"

    def __init__(self, above, turn, place, loops):
        self.above, self.turn, self.place, self.loops = above, turn, place, loops

    def path(self, turn):
        """The path of an iteration here: its steps, each a place, a number and whether it is a loop's."""
        steps, here = [], self
        while here.above is not None:
            steps.append((here.place, turn if here.loops else 0, here.loops))
            here, turn = here.above, here.turn
        return tuple(reversed(steps))


class Structure:
    """A structure: the tag and the place of its `array`, its bounds, and by index its cells and the reads that wait."""

    __slots__ = "context", "turn", "place", "low", "high", "cells", "readers"

    def __init__(self, context, turn, place, low, high):
        self.context, self.turn, self.place = context, turn, place
        self.low, self.high, self.cells, self.readers = low, high, {}, {}

    def site(self):
        return self.context.path(self.turn), self.place


def shown_path(path):
    return "".join("/%d:%d" % place + (f"#{turn}" if loops else "") for place, turn, loops in path)


def shown_site(site):
    """A site, which is a path and a place."""
    return shown_path(site[0]) + "@%d:%d" % site[1]


def shown(value):
    """A value of the language as a report has it."""
    if isinstance(value, Structure):
        return shown_site(value.site())
    return str(value).lower()  # True is printed as `true`


def calculated(op, a, b):
    """What an operator gives on two values, or the name of its fault, which is a word."""
    if op == "add":
        found = a + b
    elif op == "sub":
        found = a - b
    elif op == "mul":
        found = a * b
    elif op in ("div", "rem"):
        if b == 0:
            return "division by zero"
        found = abs(a) // abs(b) * (1 if (a < 0) == (b < 0) else -1)
        if op == "rem" and found <= MOST:
            found = a - b * found
    else:
        return COMPARED[op](a, b)
    return found if LEAST <= found <= MOST else "overflow"


COMPARED = {
    "lt": lambda a, b: a < b,
    "le": lambda a, b: a <= b,
    "gt": lambda a, b: a > b,
    "ge": lambda a, b: a >= b,
    "eq": lambda a, b: a == b,
    "ne": lambda a, b: a != b,
    "eqb": lambda a, b: a == b,
    "neb": lambda a, b: a != b,
    "and": lambda a, b: a and b,
    "or": lambda a, b: a or b,
}


class Run:
    """A run from the start on. `inputs` are the values for main's inputs, by the number of their instruction.

    A token in flight is (instruction, port, context, iteration, value, sender), a read (READ, structure, index,
    context, iteration, reply, sender), and a write (WRITE, structure, index, context, iteration, store, sender, value):
    a sender is the number of an event, or None at the start.
    """

    def __init__(self, graph, inputs):
        self.graph, self.instrs = graph, graph.instrs
        self.main = Context(None, 0, None, False)
        self.flight = [(graph.first, 0, self.main, 0, "signal", None)]
        self.flight.append((graph.first + 1, 0, self.main, 0, (self.main, 0, 0), None))
        self.flight += [(number, 0, self.main, 0, inputs[number], None) for number in graph.inputs]
        self.events = []  # messages that were handled, each with the number of the event that it met, or None
        self.waiting = {}  # by instruction, context and iteration: the port, its value and the event
        self.faults = {}  # by the number of the event: what is printed of it
        self.entered, self.structures = {}, {}  # by the number of the event: what it has made
        self.asked = {}  # by reply: the event of the read
        self.answer = None

    def deliver(self, position):
        """Takes the message at a position out of flight, and handles it; the last one goes to its position."""
        flight = self.flight
        message, last = flight[position], flight.pop()
        if position < len(flight):
            flight[position] = last
        self.handle(message)

    def go(self, draw, most):
        """Delivers messages until none is left, or so many were; `draw` gives numbers from 0 up to 1, as they come."""
        flight, deliver = self.flight, self.deliver
        for _ in range(most):
            if not flight:
                return
            deliver(int(draw() * len(flight)))

    def go_slowly(self, draw, most, share=4, turns=16):
        """As `go`, but one in so many instructions is slow: its messages are passed over most times."""
        slow = [draw() * share < 1 for _ in self.instrs]
        flight = self.flight
        for _ in range(most):
            if not flight:
                return
            for _ in range(turns):
                position = int(draw() * len(flight))
                message = flight[position]
                if not slow[message[0] if message[0] >= 0 else message[5]]:
                    break
            self.deliver(position)

    def handle(self, message):
        number = message[0]
        if number < 0:
            met, fault = self.read(message) if number == READ else self.write(message)
        else:
            it = self.instrs[number]
            _, port, context, turn, value, _ = message
            met, left, right, fault = None, value, None, None
            half = ()
            if it.two:
                key = number, context, turn
                half = self.waiting.pop(key, None)
                if half is None:
                    self.waiting[key] = port, value, len(self.events)
                else:
                    there, other, met = half
                    assert there != port, "a port is filled twice"
                    left, right = (value, other) if port == 0 else (other, value)
            if half is not None:
                fault = it.fire(self, it, context, turn, left, right)
        if fault is not None:
            self.faults[len(self.events)] = fault
        self.events.append((message, met))

    # What a read and a write do: the event that they meet in the cell, and the fault.

    def read(self, message):
        _, structure, index, context, turn, reply, _ = message
        self.asked[reply, context, turn] = len(self.events)
        held = structure.cells.get(index)
        if held is None:
            structure.readers.setdefault(index, []).append((reply, context, turn))
            return None, None
        self.flight.append((reply, 0, context, turn, held[0], len(self.events)))
        return held[1], None

    def write(self, message):
        _, structure, index, context, turn, store, _, value = message
        held = structure.cells.get(index)
        if held is not None:
            both = sorted((tag.path(its_turn), self.instrs[it].place) for tag, its_turn, it in (held[2:], message[3:6]))
            name = f"{shown(structure)}[{index}]"
            return held[1], f"fault second store of {name} at {shown_site(both[0])} and {shown_site(both[1])}"
        structure.cells[index] = value, len(self.events), context, turn, store
        for reply, to, its_turn in structure.readers.pop(index, ()):
            self.flight.append((reply, 0, to, its_turn, value, len(self.events)))
        return None, None

    # What an instruction does, by its operator: the text of its fault, or nothing.

    def send(self, dests, context, turn, value):
        number = len(self.events)
        for to, port in dests:
            self.flight.append((to, port, context, turn, value, number))

    def fail(self, it, context, turn, kind):
        return f"fault {kind} at {shown_site((context.path(turn), it.place))}"

    def fire_operator(self, it, context, turn, left, right):
        value = calculated(it.op, left, right)
        if value.__class__ is str:
            return self.fail(it, context, turn, value)
        self.send(it.yes, context, turn, value)

    def fire_const(self, it, context, turn, left, right):
        self.send(it.yes, context, turn, it.value)

    def fire_merge(self, it, context, turn, left, right):
        if it.number == 0 and context is self.main and turn == 0 and self.answer is None:
            self.answer = left
        self.send(it.yes, context, turn, left)

    def fire_not(self, it, context, turn, left, right):
        self.send(it.yes, context, turn, not left)

    def fire_neg(self, it, context, turn, left, right):
        if left == LEAST:
            return self.fail(it, context, turn, "overflow")
        self.send(it.yes, context, turn, -left)

    def fire_switch(self, it, context, turn, left, right):
        self.send(it.yes if left else it.no, context, turn, right)

    def fire_next(self, it, context, turn, left, right):
        self.send(it.yes, context, turn + 1, left)

    def fire_reset(self, it, context, turn, left, right):
        self.send(it.yes, context, 0, left)

    def fire_enter(self, it, context, turn, left, right):
        block = int(it.args[0])
        made = Context(context, turn, it.place, it.place == self.instrs[block].place)
        self.entered[len(self.events)] = made
        self.send(it.yes, context, turn, made)
        self.send([(block, 0)], made, 0, "signal")
        self.send([(block + 1, 0)], made, 0, (context, turn, it.names))

    def fire_send(self, it, context, turn, left, right):
        self.send([(it.names, 0)], left, 0, right)

    def fire_back(self, it, context, turn, left, right):
        to, its_turn, reply = left
        self.send([(reply, 0)], to, its_turn, right)

    def fire_alloc(self, it, context, turn, left, right):
        if not left - 1 <= right or right - left + 1 > LARGEST:
            return self.fail(it, context, turn, "bad bounds")
        made = Structure(context, turn, it.place, left, right)
        self.structures[len(self.events)] = made
        self.send(it.yes, context, turn, made)

    def fire_address(self, it, context, turn, left, right):
        if not left.low <= right <= left.high:
            return self.fail(it, context, turn, "out of bounds")
        self.send(it.yes, context, turn, (left, right))

    def fire_fetch(self, it, context, turn, left, right):
        self.flight.append((READ, *left, context, turn, it.names, len(self.events)))

    def fire_store(self, it, context, turn, left, right):
        self.flight.append((WRITE, *left, context, turn, it.number, len(self.events), right))

    # What a run shows.

    def report(self):
        """The lines that the program prints of a run that has no fault and falls quiet, or that was stopped."""
        lines = ["stopped"] if self.flight else []
        lines.append(f"answer {'none' if self.answer is None else shown(self.answer)}")
        waiting = []
        for it in sorted(self.structures.values(), key=Structure.site):
            name = shown(it)
            lines.append(f"array {name} {it.low}..{it.high}")
            lines += [f"cell {name}[{index}] = {shown(it.cells[index][0])}" for index in sorted(it.cells)]
            for index, readers in it.readers.items():
                for reply, context, turn in readers:
                    waiting.append(((context.path(turn), self.instrs[reply].place), f"{name}[{index}]"))
        if not self.flight:
            lines += [f"waiting {shown_site(site)} of {cell}" for site, cell in sorted(waiting)]
        return lines

    def needed(self, number):
        """The events without which this one could not be, in the order of the run, and itself at their end."""
        found, left = set(), [number]
        while left:
            here = left.pop()
            if here is None or here in found:
                continue
            found.add(here)
            message, met = self.events[here]
            sender = message[6] if message[0] < 0 else message[5]
            left += [sender, met]
            if message[0] >= 0 and sender is not None and self.events[sender][0][0] == WRITE:
                # the value of a read that waited until this write
                left.append(self.asked[message[0], message[2], message[3]])
        return sorted(found)

    def trace(self, numbers, count):
        """The lines of these events, which are handled in this order on so many elements: by stamp, then by element."""
        trace = Trace(self, count)
        return [line for _, _, line in sorted([trace.line(number) for number in numbers])]


class Trace:
    """The lines of events of a run on so many elements, in the order in which they are handled."""

    def __init__(self, run, count):
        self.run, self.count = run, count
        self.named, self.stamps = {id(run.main): (0, 0)}, {None: 0}
        # of each element the last stamp, and how many contexts and structures it has made
        self.elements = [[0, 0, 0] for _ in range(count)]

    def name(self, it):
        return "%d.%d" % self.named[id(it)]

    def value(self, value):
        """A value as a trace has it: an address is a pair, a continuation a triple."""
        if isinstance(value, Context):
            return "c" + self.name(value)
        if isinstance(value, Structure):
            return "s" + self.name(value)
        if not isinstance(value, tuple):
            return shown(value)
        if isinstance(value[0], Context):
            return f"k{self.name(value[0])}#{value[1]}:{value[2]}"
        return f"s{self.name(value[0])}[{value[1]}]"

    def message(self, message):
        """A message of which all contexts and structures are named."""
        if message[0] >= 0:
            to, port, context, turn, value, _ = message
            return f"token c{self.name(context)}#{turn} {to}.{port} {self.value(value)}"
        kind, structure, index, context, turn, to = message[:6]
        what = f"s{self.name(structure)}[{index}]"
        if kind == WRITE:
            return f"write {what} {self.value(message[7])} c{self.name(context)}#{turn} {to}"
        return f"read {what} c{self.name(context)}#{turn} {to}"

    def route(self, message):
        """The element that a message is for."""
        if message[0] >= 0:
            return (sum(self.named[id(message[2])]) + message[3]) % self.count
        return (sum(self.named[id(message[1])]) + message[2] - message[1].low) % self.count

    def line(self, number):
        """The next event, by its number: its stamp, its element and its line. What it has made has a name then."""
        message, run = self.run.events[number][0], self.run
        element = self.route(message)
        state, sender = self.elements[element], message[5] if message[0] >= 0 else message[6]
        self.stamps[number] = state[0] = max(state[0], self.stamps[sender]) + 1
        text = self.message(message)
        for which, made in ((1, run.entered.get(number)), (2, run.structures.get(number))):
            if made is not None:
                state[which] += 1
                self.named[id(made)] = element, state[which]
        failed = " fault" if number in run.faults else ""
        return state[0], element, f"{state[0]} {element} {text}{failed}"


def inputs_of(graph, file, words):
    """The values of main's inputs, which the program has taken, by the number of their instruction."""
    with open(file, "rb") as it:
        text = it.read()
    given = {word.partition("=")[0]: word.partition("=")[2] for word in words}
    found = {}
    for number, place in graph.inputs.items():
        name = re.match(rb"\w+", text[reading.place_at(text, *place) :]).group().decode()
        value = given[name]
        if graph.instrs[number].args[0] == "bool":
            found[number] = value == "true"
        else:
            found[number] = int(re.sub("^(-?)0+(?=[0-9])", r"\1", value))
    return found


def start(words):
    """The graph and the inputs of a run, by the words of its file and its inputs; the program refuses wrong ones."""
    listing = asking.ask("graph", words[0])[1]
    asking.ask("run", *words, "--steps", "1")
    try:
        graph = Graph(listing)
    except Unread as line:
        sys.exit(f"`idc graph` prints what is no listing: {line}")
    return graph, inputs_of(graph, words[0], words[1:])
