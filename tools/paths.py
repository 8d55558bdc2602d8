"""Paths in words, the inner step first, for the tools; tools/page/paths.js says the same. No claim rests on it.

A call is told by its procedure and the numbers and truth values of its parameters, an iteration by its number and the
loop's line: `in eat(own=1, other=2), iteration 0 of the loop at line 11`. Of more than MOST steps the innermost are
told, and how many there are: `in fact(21), 5 calls below main`.
"""
import reading

MOST = 3


def step(source, path):
    """The last step of a path. The source has the nodes by place, the procedures by name, and values of things."""
    place, _, turn = path[-1].partition("#")
    node = source.nodes[place]
    if turn:
        return f"iteration {turn} of the loop at line {place.split(':')[0]}"
    params = source.procedures[node.name].params
    given = {param.name: source.value((param, path)) for param in params}
    shown = {name: value for name, value in given.items() if value and "@" not in value}
    if not shown:
        return f"{node.name}({'..' if params else ''})"
    if len(params) == 1:
        return f"{node.name}({given[params[0].name]})"
    return f"{node.name}({', '.join(f'{name}={value}' for name, value in shown.items())})"


def in_words(source, path):
    """A path; nothing of main's own."""
    if not path:
        return ""
    if len(path) <= MOST:
        return "in " + ", ".join(step(source, path[: at + 1]) for at in reversed(range(len(path))))
    inner, above = [step(source, path)], path[:-1]
    if "#" in path[-1]:
        inner, above = [*inner, step(source, above)], above[:-1]
    kind = "steps" if any("#" in it for it in path) else "calls"
    return f"in {', '.join(inner)}, {len(path)} {kind} below main"


class Names:
    """A text's things by place, with the values of some of its names, {(node, path): value}."""

    def __init__(self, text, values=None):
        self.text, self.procedures, self.nodes, self.values = text, {}, {}, values or {}
        for node in reading.outer_of(reading.tree_of(text)):
            if node.form == "definition":
                self.procedures.setdefault(node.name, node)
            if node.form != "program":
                self.nodes[self.place(node)] = node

    def place(self, node):
        return "%d:%d" % reading.line_col(self.text, node.at)

    def value(self, thing):
        return self.values.get(thing)
