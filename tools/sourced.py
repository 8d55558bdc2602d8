"""A text's things by place, and what `idc facts` and `idc why` print of them, for the tools. No claim rests on it.

A thing is a node of the text at a path; a path is a tuple of steps as they are printed, `2:48` of a call and `5:6#3` of
an iteration.
"""
import re

import asking, paths

SITE = r"((?:/\d+:\d+(?:#\d+)?)*)@(\d+:\d+)"
FACT = re.compile(rf"(?:on|has) {SITE}(?: = (.+))?$")
SHAPE = re.compile(r"shape (\S+) (-?\d+)\.\.(-?\d+)$")
LACK = re.compile(r"waits (\S+) for(?: (.+?) of)? (.+)$")
ROUNDS = (300, 1000, 3000, 10000)  # that are tried in turn until no facts are new
NAMES = {"conditional": "if", "loop": "the loop", "for": "the loop", "block": "the block", "array": "array"}


def path_of(text):
    return tuple(text.split("/")[1:])


class Source(paths.Names):
    """A text with inputs, and the facts of a round."""

    def __init__(self, file, words):
        with open(file, "rb") as opened:
            super().__init__(opened.read())
        self.file, self.words = file, words

    def thing(self, site):
        """The thing of a path and a place, as `/5:6#0@7:2`."""
        path, _, place = site.partition("@")
        return self.nodes[place], path_of(path)

    def read(self, rounds):
        """The facts of so many rounds: what is on, the values, and the bounds of arrays."""
        self.on, self.values, self.shapes = set(), {}, {}
        for line in asking.ask("facts", self.file, str(rounds), *self.words)[1]:
            if found := FACT.match(line):
                thing = self.nodes[found[2]], path_of(found[1])
                self.on.add(thing)
                if found[3]:
                    self.values.setdefault(thing, found[3])
            elif found := SHAPE.match(line):
                self.shapes[found[1]] = int(found[2]), int(found[3])

    def lacks(self):
        """What lacks a value, as the program tells it, once no facts are new: of each thing the cells that it asks
        for, and what it waits for. None where more rounds had more facts. Reads the facts of that round too."""
        for rounds in ROUNDS:
            lines = asking.ask("why", self.file, "--rounds", str(rounds), *self.words)[1]
            if not lines[-1].startswith("more facts"):
                break
        else:
            return None
        self.read(rounds)
        found = [LACK.match(line).groups() for line in lines[1:] if line.startswith("waits")]
        every = lambda sites: [self.thing(it) for it in sites.split(" ") if it != "none"]
        return {self.thing(site): (cells, every(sites)) for site, cells, sites in found}

    def value(self, thing):
        """The value of a thing; of a store, of what it stores."""
        node, path = thing
        return self.values.get((node.parts[2] if node.form == "store" else node, path))

    def called(self, thing, of="", path=None):
        """A thing in words, and what is said of its value; without its path where that is the one given."""
        node = thing[0]
        if node.form == "literal":
            return node.name + of
        words = paths.in_words(self, thing[1]) if thing[1] != path else ""
        return f"{self.name_of(thing)}{of} ({self.place(node)})" + (" " + words if words else "")

    def name_of(self, thing):
        node, path = thing
        if node.form in ("fetch", "store"):
            target = node.parts[0].name if node.parts[0].form == "name" else "(..)"
            return f"{target}[{self.value((node.parts[1], path)) or '..'}]"
        return NAMES.get(node.form, node.name)
