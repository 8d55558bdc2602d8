"""The hints of tools/hints.json, for tools/explain and tools/why; tools/page/explain.js has the same in JavaScript.

No claim rests on them.
"""
import json, os, re

import needing, reading

with open(os.path.join(os.path.dirname(os.path.realpath(__file__)), "hints.json"), encoding="utf-8") as _file:
    TABLE = json.load(_file)

# A comment that looks like an operand behind an operator `%`: a number or a name with what goes on behind it.
OPERAND = re.compile(
    r"%[ \t]*(?:[0-9]+|[A-Za-z_][A-Za-z_0-9]*(?:\[[^\]]*\])?)[ \t]*(?:;|\)|\]|==|<>|[<>+*=]|then\b|do\b|and\b|or\b)"
    r"|%[ \t]*(?:[0-9]+[ \t\r]*$|\([^()]*\)[ \t]*[;)])"
)


def filled(hint, **words):
    """A hint with words in place of {at} and so on; a `{` that begins no such place stays."""
    for name, word in words.items():
        hint = hint.replace("{" + name + "}", word)
    return hint


def open_at(tokens, number):
    """What is open before a token: `def(`, `array(`, `name(`, `name[`, `{while` and so on, or nothing."""
    opened = []
    for i, token in enumerate(tokens[:number]):
        if token.kind == "(":
            before = [it.kind for it in tokens[max(0, i - 2) : i]]
            of = before[-1] if before and before[-1] in ("array", "name") else ""
            opened.append(("def" if before == ["def", "name"] else of) + "(")
        elif token.kind == "{":
            behind = tokens[i + 1].kind
            opened.append("{" + (behind if behind in ("while", "for") and i + 1 < number else ""))
        elif token.kind == "[":
            opened.append("[")
        elif token.kind in (")", "]", "}") and opened:
            opened.pop()
    return opened[-1] if opened else ""


def comment_behind(text, tokens, number):
    """The comment behind the token before, on its line, where it looks like an operand, or nothing."""
    if not number:
        return ""
    before = tokens[number - 1]
    start = before.at + len(before.text)
    ends = text.find(b"\n", start)
    between = text[start : min(len(text) if ends < 0 else ends, tokens[number].at)].decode(errors="replace")
    found = OPERAND.match(between.lstrip(" \t"))
    return between.strip() if found else ""


def of_token(text, tokens, number, may, said=None):
    """The hint of a token at which a text is refused, where it has one; `may` has the kinds of those that go on, and
    rows that say what is said already are left out.
    """
    around = {"first": number - 2, "before": number - 1, "at": number, "behind": number + 1}
    token = {name: tokens[i] if 0 <= i < len(tokens) else None for name, i in around.items()}
    words = {name: it.text if it else "" for name, it in token.items()}
    words["comment"], inside = comment_behind(text, tokens, number), open_at(tokens, number)

    def is_one(it, wanted):
        return it is not None and (
            it.kind in wanted or it.text in wanted or "reserved" in wanted and it.kind in reading.RESERVED
        )

    for row in TABLE["tokens"]:
        if (
            (said is None or row.get("says") != said)
            and all(is_one(token[name], row[name]) for name in around if name in row)
            and all(kind in may for kind in row.get("may", []))
            and not any(kind in may for kind in row.get("not", []))
            and ("in" not in row or inside in row["in"])
            and ("comment" not in row or words["comment"])
        ):
            return filled(row["hint"], **words)
    return None


def of_character(sign):
    """The hint of a character that begins no token; `sign` has what follows it too."""
    signs = TABLE["characters"]
    for it in (sign[:2], sign[:1], "U+%04X" % ord(sign[0])):
        if it in signs:
            return signs[it]
    return signs["letter"] if sign[0].isalpha() else None


def of_unknown(name, is_call):
    """The hint of a name that has no binder, or of a call that has no procedure."""
    found = (it["hint"] for it in TABLE["unknown"] if name in it["names"] and (is_call or not it.get("call")))
    return next(found, None)


def role_of(node, above):
    """As what a thing stands in the one round it, in one word."""
    outer = above[-1]
    if outer.form == "binary":
        return outer.name
    if outer.form == "store" and node is outer.parts[2]:
        return "value"
    return "body" if outer.form == "definition" else outer.form


def of_kind(wanted, found, node, above):
    """The hint of an expression that has another kind than is wanted of it."""
    role = role_of(node, above) if above else ""
    left = above[-1].parts[0] if above and above[-1].form == "binary" else None
    callee = next((it for it in above[0].parts if it.name == above[-1].name), None) if role == "call" else None
    params = callee.params if callee else []
    for row in TABLE["kinds"]:
        if (
            row.get("wanted", wanted) == wanted
            and row.get("found", found) == found
            and ("as" not in row or role in row["as"])
            and ("is" not in row or node.form in row["is"])
            and ("left" not in row or left is not None and left.form == row["left"])
            and ("other" not in row or found in [it.kind for it in params])
        ):
            words = {"left": left.name if left is not None else "", "callee": callee.name if callee else ""}
            return filled(row["hint"], **words, params=", ".join(f"{it.name}: {it.kind}" for it in params))
    return None


def value_part(node):
    """What gives an expression its value: of a block its body, of a loop its last expression, of an `if` its arm."""
    while node.form in ("block", "loop", "for", "conditional"):
        node = node.parts[1] if node.form == "conditional" else node.parts[-1]
    return node


def of_second(first, second):
    """The hint of a second binder of one name."""
    for row in TABLE["second"]:
        if (row["first"], row["second"]) == (first.form, second.form):
            return filled(row["hint"], name=second.name)
    return None


def of_unseen(binder, above, use_above):
    """The hint of a name that a loop's body binds, where it is used behind the loop's `finally` or elsewhere."""
    loop = above[-1]
    if binder.form == "index":
        return TABLE["seen"]["index"]
    is_beside = loop.form in ("loop", "for") and loop in use_above and binder.form == "binding"
    return filled(TABLE["seen"]["body"], name=binder.name) if is_beside else None


def value_of(text, binding):
    """The words of a binding's value, on one line, where they are few."""
    tokens = reading.tokens_of(text)
    first = next(i for i, it in enumerate(tokens) if it.at == binding.at) + 2
    end, depth = first, 0
    while tokens[end].kind != ";" or depth:
        depth += (tokens[end].kind in ("{", "(", "[")) - (tokens[end].kind in ("}", ")", "]"))
        end += 1
    return words_of(text, tokens[first].at, tokens[end].at)


def words_of(text, start, end):
    """A part of a text on one line, where that is short."""
    words = " ".join(text[start:end].decode(errors="replace").split())
    return words if len(words) <= 40 and "%" not in words else ".."


def last_of(text, loop):
    """The words of a loop's last expression, where they are few."""
    tokens, depth, start = reading.tokens_of(text), 0, 0
    for token in tokens[next(i for i, it in enumerate(tokens) if it.at == loop.at) :]:
        depth += (token.kind == "{") - (token.kind == "}")
        if token.kind == "finally" and depth == 1:
            start = token.at + len("finally")
        if depth == 0:
            return words_of(text, start, token.at)


def never_end(text):
    """Whether an accepted text has a procedure or a loop that surely goes on, once it has begun to."""
    program = reading.tree_of(text)
    needs = needing.Needs(program)
    always = (node.form == "loop" and node.parts[0].name == "true" for node in reading.outer_of(program))
    return bool(needs.endless() or needs.same_in_each() or any(always))


def warnings(text):
    """Of an accepted text, what surely isn't meant: places, each with a sentence and a hint, in the text's order."""
    program = reading.tree_of(text)
    needs, said, found, told = needing.Needs(program), TABLE["warnings"], [], set()
    outer = reading.outer_of(program)

    def others(circle):
        told = [f"{it.name} ({'%d:%d' % reading.line_col(text, it.at)})" for it in circle[1:6]]
        return " and ".join(told + [f"{len(circle) - 6} more"] * (len(circle) > 6))

    for circle in needs.circles():
        told |= set(circle)
        node, above = circle[0], reading.round_it(circle[0], outer)
        loops = above[-1].form in ("loop", "for")
        words = {"name": node.name, "where": "iteration" if loops else "block", "others": others(circle)}
        variable = loops and reading.binder_of(reading.Node("next", node.at, node.name), above) is not None
        if len(circle) > 1:
            hint = said["others next" if loops else "others"]
        else:
            hint = filled(said["next"], value=value_of(text, node)) if variable else said["other"]
        found.append((node.at, filled(said["circle" if circle[1:] else "itself"], **words), filled(hint, **words)))
    for circle in needs.endless():
        words = {"name": circle[0].name, "others": others(circle)}
        found.append((circle[0].at, filled(said["endless circle" if circle[1:] else "endless"], **words), said["base"]))
    for loop, outside in needs.same_in_each():
        if not any(it in told and it.name == name.name for it in loop.statements for name in outside):
            found.append((loop.at, said["same"], filled(said["turn"], name=outside[0].name)))
    for node, loop, first, use in needs.lost():
        line = lambda it: str(reading.line_col(text, it.at)[0])
        bound = outer[loop].name if outer[loop].form == "binding" else said["bound"]
        words = {"name": node.name, "last": last_of(text, loop), "first": line(first), "use": line(use)}
        found.append((node.at, filled(said["lost"], **words), filled(said["hand out"], **words, bound=bound)))
    for node in outer:
        if node.form == "loop" and node.parts[0].name == "true":
            found.append((node.at, said["always"], said["until"]))
    return sorted(found)
