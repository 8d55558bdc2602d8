"""Names that surely never get a value, of an accepted text, for the tools. No claim rests on it.

A thing *needs* a name where it has a value at a path only if the name has one there, or outside of the loop, and has it
before, by the rules of docs/MEANING.md. So a name that needs itself never gets a value, whatever the inputs are. Only
what is sure counts:

- An operator needs what its operands need; an array, what its bounds need; a fetch, what its target and index need. The
  cell that a fetch asks for counts for nothing, since any store may fill it.
- A name needs its binder, and that what its expression needs. A block needs what its body needs.
- A conditional needs what its predicate needs, and what both of its arms need.
- A call needs what those arguments need whose parameters the procedure's body needs. So `k(7, r)` needs no `r`, where
  `k` gives its first parameter.
- A loop needs what its bounds need, or its predicate in the first iteration, and its last expression. A variable needs
  its first value where each further value needs the one before.
- A store is needed by nothing.

A procedure never gives a value where its body needs a call of it, in each arm that might give one.

A variable of a loop is *lost* where nothing that the loop hands out or does comes of it, and the name that it has its
first value from is used behind the loop: there it still has that value.
"""
import reading

DOES = ("store", "call", "array")


class Needs:
    """What the things of a program need: binders, by the text."""

    def __init__(self, program):
        self.program, self.uses = program, reading.uses_of(program)
        self.uses_by = {}  # where each binder is used
        for it, binder in self.uses.items():
            self.uses_by.setdefault(binder, []).append(it)
        self.procedures = {it.name: it for it in reversed(program.parts)}
        self.callers = {name: set() for name in self.procedures}
        for head in self.procedures.values():
            for node in reading.outer_of(head):
                if node.form == "call" and node.name in self.callers:
                    self.callers[node.name].add(head.name)
        # the parameters that a procedure's body needs: all at first, and then fewer, until each stands by the others
        self.strict = {name: set(head.params) for name, head in self.procedures.items()}
        self.settle(self.is_less_strict)
        self.memo = {}

    def settle(self, changes):
        """Asks of each procedure whether it changes, and, where one did, of its callers again."""
        left = set(self.procedures)
        while left:
            name = left.pop()
            if changes(name):
                left |= self.callers[name]

    def is_less_strict(self, name):
        self.memo = {}
        head = self.procedures[name]
        now = self.strict[name] & self.needs(head.parts[0])
        changed, self.strict[name] = now != self.strict[name], now
        return changed

    def needs(self, node):
        """The binders that an expression needs, those of its own blocks among them."""
        if node not in self.memo:
            self.memo[node] = self.found(node)
        return self.memo[node]

    def found(self, node):
        if node.form == "literal":
            return frozenset()
        if node.form == "name":
            return frozenset([self.uses[node]] if self.uses[node] else [])
        if node.form == "conditional":
            predicate, yes, no = map(self.needs, node.parts)
            return predicate | yes & no
        if node.form == "call":
            head = self.procedures.get(node.name)
            params = head.params if head else []
            return self.all(part for part, param in zip(node.parts, params) if param in self.strict[node.name])
        if node.form in ("loop", "for"):
            return self.loop(node)
        found = self.all(node.parts)
        return self.closed(found, node) if node.form == "block" else found

    def all(self, nodes):
        return frozenset().union(*map(self.needs, nodes))

    def closed(self, binders, outer):
        """Binders, with what those of them need that are statements of a block or a loop."""
        own = {it for it in outer.statements if it.form == "binding"}
        found, left = set(binders), list(own & binders)
        while left:
            new = self.needs(left.pop().parts[0]) - found
            found |= new
            left += new & own
        return frozenset(found)

    def loop(self, node):
        """What a loop needs of what stands outside of it."""
        inside = set(node.params + node.statements)
        turns = {it for it in node.statements if it.form == "next"}

        def outer(binders, kept):
            """Binders outside of the loop, and the first values of those of its variables that are kept."""
            firsts = {self.uses[it] for it in binders & kept}
            return (binders - inside | firsts) - {None}

        further = {it: self.closed(self.needs(it.parts[0]), node) for it in turns}
        keeps, before = turns, None  # the variables each of whose values needs the first one
        while keeps != before:
            before, keeps = keeps, {it for it in keeps if self.uses[it] in outer(further[it], keeps)}
        if node.form == "for":
            return self.all(node.parts[:2]) | outer(self.needs(node.parts[2]), keeps)
        return outer(self.needs(node.parts[0]), turns) | outer(self.needs(node.parts[1]), keeps)

    def circles(self):
        """The bindings that need themselves, in lists by circle, each by place, the lists too."""
        graph = {}
        for head in self.procedures.values():
            for node in reading.outer_of(head):
                if node.form == "binding":
                    graph[node] = [it for it in self.needs(node.parts[0]) if it.form == "binding"]
        found = [sorted(it, key=lambda node: node.at) for it in circles_of(graph)]
        return sorted(found, key=lambda circle: circle[0].at)

    def endless(self):
        """The procedures that never give a value and lead to themselves, by place."""
        ends = set()

        def gives(node):
            """Whether an expression might have a value, where each name has one."""
            if node.form == "conditional":
                return gives(node.parts[0]) and (gives(node.parts[1]) or gives(node.parts[2]))
            if node.form == "call" and node.name in self.procedures:
                params = self.procedures[node.name].params
                strict = self.strict[node.name]
                return node.name in ends and all(gives(it) for it, p in zip(node.parts, params) if p in strict)
            return all(map(gives, node.parts))

        def ends_now(name):
            if name in ends or not gives(self.procedures[name].parts[0]):
                return False
            ends.add(name)
            return True

        self.settle(ends_now)
        never = set(self.procedures) - ends
        graph = {name: [] for name in never}
        for name in never:
            for callee in never:
                if name in self.callers[callee]:
                    graph[name].append(callee)
        found = [sorted(self.procedures[name].at for name in circle) for circle in circles_of(graph)]
        at = {it.at: it for it in self.procedures.values()}
        return [[at[it] for it in circle] for circle in sorted(found)]

    def same_in_each(self):
        """The loops whose predicate names something, but no variable of the loop, by place."""
        found = []
        for node in reading.outer_of(self.program):
            if node.form == "loop":
                inside = reading.outer_of(node.parts[0])
                names = [self.uses[it] for it in inside if self.uses.get(it) and self.uses[it] not in inside]
                if names and not set(names) & set(node.statements):
                    found.append((node, names))
        return found

    def leads(self, loop):
        """The binders of a loop from which a way leads to its last expression, its predicate, or something of its body
        that does more than to have a value: a store, a call or an array. All that a name stands in leads on."""
        inside, last = reading.outer_of(loop), loop.parts[len(reading.bounds_of(loop)) :]
        does = [it for it in loop.statements if any(at.form in DOES for at in reading.outer_of(it))]
        found, left = set(), [*last, *does]
        while left:
            for it in reading.outer_of(left.pop()):
                binder = self.uses.get(it)
                if binder in inside and binder not in found:
                    found.add(binder)
                    left += binder.parts
        return found

    def lost(self):
        """The variables of loops that lead to nothing, where the outer name of one is used behind the loop: each with
        its loop, the outer binder, and the first such use."""
        found = []
        for loop in reading.outer_of(self.program):
            if loop.form in ("loop", "for"):
                inside, leads = reading.outer_of(loop), None
                for it in (at for at in loop.statements if at.form == "next"):
                    outer = self.uses[it]
                    behind = [at for at in self.uses_by.get(outer, []) if at.at > loop.at and at not in inside]
                    leads = self.leads(loop) if behind and leads is None else leads
                    if behind and it not in leads:
                        found.append((it, loop, outer, min(behind, key=lambda at: at.at)))
        return found


def circles_of(graph):
    """The lists of those in a graph that lead to one another, or of one that leads to itself (Tarjan's algorithm)."""
    order, low, stack, on, found = {}, {}, [], set(), []
    for root in graph:
        if root in order:
            continue
        order[root] = low[root] = len(order)
        stack.append(root)
        on.add(root)
        work = [(root, iter(graph[root]))]
        while work:
            node, left = work[-1]
            for it in left:
                if it not in order:
                    order[it] = low[it] = len(order)
                    stack.append(it)
                    on.add(it)
                    work.append((it, iter(graph[it])))
                    break
                if it in on:
                    low[node] = min(low[node], order[it])
            else:
                work.pop()
                if work:
                    low[work[-1][0]] = min(low[work[-1][0]], low[node])
                if low[node] == order[node]:
                    circle = []
                    while not circle or circle[-1] is not node:
                        circle.append(stack.pop())
                        on.discard(circle[-1])
                    if len(circle) > 1 or node in graph[node]:
                        found.append(circle)
    return found
