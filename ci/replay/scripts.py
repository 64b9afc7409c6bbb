"""Scripts as text, what a script does line by line, and the report (docs/scripts.md)."""
import re

from model.design import Name, Property
from model.flat import item_lines
from model.text import canonical, quoted

from .history import State, object_words
from .operations import run

MOST_RETRIES = 16

DIRECTIONS = {"in": "INPUT", "out": "OUTPUT", "inout": "INOUT", "none": None}


class BadLine(Exception):
    """The number of the first line that is none."""


class Differs(Exception):
    """What the report should have said."""


# ---- words


def words_of(line):
    """The words of a line: from its first quote on it is not cut."""
    front, quote, rest = line.partition('"')
    words = [w for w in re.split("[ \t]+", front) if w]
    if not quote:
        return words
    if front and front[-1] not in " \t":
        raise ValueError("a string without a blank before it")
    return words + [(quote + rest).rstrip(" \t")]


def name(word):
    if not re.fullmatch("[A-Za-z0-9_]+", word):
        raise ValueError("no identifier")
    return word


def path(word):
    return tuple(name(step) for step in word.split("/"))


def digits(word, most):
    if not re.fullmatch("[0-9]+", word) or int(word) > most:
        raise ValueError("no such number")
    return int(word)


def integer(word, bits=64):
    if not re.fullmatch("[+-]?[0-9]+", word) or not -(2 ** (bits - 1)) <= int(word) < 2 ** (bits - 1):
        raise ValueError("no such integer")
    return int(word)


def string(word):
    """What a string stands for."""
    if not re.fullmatch('"[^"]*"', word) or word.count("%") % 2:
        raise ValueError("no string")
    parts = word[1:-1].split("%")
    for place in range(1, len(parts), 2):
        codes = parts[place].split()
        if not all(re.fullmatch("[0-9]+", c) and int(c) < 256 for c in codes) or re.search(r"[^0-9 \t\r\f]", parts[place]):
            raise ValueError("no escape")
        parts[place] = "".join(chr(int(c)) for c in codes)
    return "".join(parts)


def value(words):
    if words in (["true"], ["false"]):
        return "boolean", words == ["true"]
    if len(words) == 2 and words[0] == "int":
        return "integer", integer(words[1])
    if len(words) == 2 and words[0] == "num":
        return "number", integer(words[1])
    if len(words) == 4 and words[0] == "num" and words[2] == "e":
        return "scaled", (integer(words[1]), integer(words[3], 32))
    if len(words) == 2 and words[0] == "str":
        return "string", string(words[1])
    raise ValueError("no value")


def keyed(words):
    return Property(Name(name(words[0])), value(words[1:]))


def port(word):
    parts = word.split(":")
    if len(parts) not in (2, 3) or parts[1] not in DIRECTIONS:
        raise ValueError("no port")
    width = digits(parts[2], 65536) if len(parts) == 3 else None
    if width == 0:
        raise ValueError("no width")
    return name(parts[0]), DIRECTIONS[parts[1]], width


def inst_or_own(word):
    return None if word == "-" else name(word)


def bit(word):
    return digits(word, 2**32 - 1)


# The lines of operations with a fixed number of words: what each word is.
SHAPES = {
    "show-cell": [name, name],
    "show-net": [name, name, name],
    "show-inst": [name, name, name],
    "add-net": [name, name, name],
    "drop-net": [name, name, name],
    "add-inst": [name, name, name, name, name],
    "drop-inst": [name, name, name],
    "join": [name, name, name, inst_or_own, name, bit],
    "cut": [name, name, inst_or_own, name, bit],
    "drop-note": [path, name],
    "uniquify": [],
    "unique-path": [path],
    "ungroup": [name, name, name],
}


def operation(words):
    """The operation of a line."""
    verb, rest = words[0], words[1:]
    if verb in SHAPES:
        if len(rest) != len(SHAPES[verb]):
            raise ValueError("too few or too many words")
        return (verb, *[read(word) for read, word in zip(SHAPES[verb], rest)])
    if verb == "add-cell" and len(rest) >= 3 and rest[2] in ("leaf", "empty"):
        return (verb, name(rest[0]), name(rest[1]), rest[2], *[port(word) for word in rest[3:]])
    if verb == "set-prop" and len(rest) >= 5 and rest[2] == "cell":
        return (verb, name(rest[0]), name(rest[1]), "cell", None, keyed(rest[3:]))
    if verb == "set-prop" and len(rest) >= 6 and rest[2] in ("inst", "net"):
        return (verb, name(rest[0]), name(rest[1]), rest[2], name(rest[3]), keyed(rest[4:]))
    if verb == "set-note" and len(rest) >= 3:
        return (verb, path(rest[0]), keyed(rest[1:]))
    raise ValueError("no operation")


def value_words(found):
    kind, held = found
    if kind == "boolean":
        return "true" if held else "false"
    if kind == "scaled":
        return f"num {held[0]} e {held[1]}"
    return {"integer": f"int {held}", "number": f"num {held}", "string": f"str {quoted(held) if kind == 'string' else ''}"}[kind]


def port_word(found):
    declared, direction, width = found
    told = next(word for word, held in DIRECTIONS.items() if held == direction)
    return f"{declared}:{told}" + ("" if width is None else f":{width}")


def operation_line(op):
    """The line that says an operation, in its one canonical spelling."""
    words = [op[0]]
    for word in op[1:]:
        if isinstance(word, Property):
            words.append(f"{word.name.id} {value_words(word.value)}")
        elif op[0] == "add-cell" and isinstance(word, tuple):
            words.append(port_word(word))
        elif isinstance(word, tuple):
            words.append("/".join(word))
        elif word is not None:
            words.append(str(word))
        elif op[0] != "set-prop":
            words.append("-")
    return " ".join(words)


# ---- the text of a script


def step_of(words, place):
    """The step of a line in this place, and the place behind it."""
    line = " ".join(words)
    if place == "nothing" and words[0] == "begin" and len(words) in (1, 3):
        if len(words) == 3 and words[1] != "retry":
            raise ValueError("no begin")
        return ("begin", digits(words[2], MOST_RETRIES) if len(words) == 3 else 0), "block"
    if place == "block" and line in ("commit", "abandon"):
        return (line,), "nothing"
    if place == "nothing" and line == "pin":
        return ("pin",), "pin"
    if place == "nothing" and words[0] == "pin-at" and len(words) == 2:
        return ("pin-at", digits(words[1], 2**64 - 1)), "pin"
    if place == "pin" and line == "walk":
        return ("walk", None), place
    if place == "pin" and words[:2] == ["walk", "limit"] and len(words) == 3 and digits(words[2], 2**32 - 1) > 0:
        return ("walk", int(words[2])), place
    if place == "pin" and line == "release":
        return ("release",), "nothing"
    if place != "block" and line == "collect":
        return ("collect",), place
    if place == "block":
        return ("run", operation(words)), place
    raise ValueError("no line here")


def parse(text):
    """The steps of a script."""
    steps, place = [], "nothing"
    lines = text.split("\n")
    for number, line in enumerate(lines, 1):
        if number < len(lines) and line.endswith("\r"):
            line = line[:-1]
        first = re.split("[ \t]+", line.lstrip(" \t"))[0]
        if first == "" or first.startswith("#"):
            continue
        try:
            step, place = step_of(words_of(line), place)
        except ValueError:
            raise BadLine(number) from None
        steps.append(step)
    return steps


# ---- what a script does


def walked(design, limit):
    lines = list(item_lines(design))
    shown = lines if limit is None else lines[:limit]
    return shown + ["end" if len(shown) == len(lines) else "more"]


def answered(state, answer):
    """The line that says an answer."""
    if answer[0] == "conflict":
        return f"conflict {object_words(state.versions[-1], answer[1])} version {answer[2]}"
    return " ".join(str(word) for word in answer[:2])


class Session:
    """A script as a caller: it asks for its calls one after the other, and says the lines of its transcript."""

    def __init__(self, steps, state):
        self.state, self.said = state, []
        self.going = self.lines(steps)
        self.wanted = next(self.going, None)

    def take(self, answer):
        try:
            self.wanted = self.going.send(answer)
        except StopIteration:
            self.wanted = None

    def lines(self, steps):
        held = None  # the number and the version of the pin, after `pin` and `pin-at`
        at = 0
        while at < len(steps):
            verb, rest = steps[at][0], steps[at][1:]
            at += 1
            if verb == "begin":
                at = yield from self.block(steps, at, rest[0])
            elif verb in ("pin", "pin-at"):
                answer = yield (verb, *rest)
                held = answer[1:] if answer[0] == "pin" else None
                self.said.append(f"pin {answer[2]}" if held else answered(self.state, answer))
            elif verb == "collect":
                answer = yield ("collect",)
                self.said.append(answered(self.state, answer))
            elif held is None:
                self.said.append("no-pin")
            elif verb == "walk":
                self.said += walked(self.state.versions[held[1]], rest[0])
            else:
                yield ("release", held[0])
                self.said.append("released")
                held = None
        if held is not None:
            yield ("release", held[0])

    def block(self, steps, at, retries):
        """A transaction, which is run again after a conflict while retries are left; the place behind it."""
        end = next((i for i in range(at, len(steps)) if steps[i][0] != "run"), len(steps))
        ops = [steps[i][1] for i in range(at, end)]
        while True:
            _, number, version = yield ("pin",)
            self.said.append(f"begin {version}")
            self.said += [step.reply for step in run(self.state.versions[version], ops)]
            if end == len(steps) or steps[end][0] == "abandon":
                yield ("release", number)
                self.said += ["abandoned"] if end < len(steps) else []
                return end + 1
            answer = yield ("commit", number, ops)
            self.said.append(answered(self.state, answer))
            yield ("release", number)
            if answer[0] == "committed" or retries == 0:
                return end + 1
            retries -= 1


# ---- the report


def event_lines(state, number, caller, call, answer):
    asked = {"commit": "commit pin {}", "release": "release pin {}", "pin-at": "pin-at {}"}.get(call[0], call[0]).format(*call[1:2])
    told = f"pin {answer[1]} version {answer[2]}" if answer[0] == "pin" else answered(state, answer)
    yield f"{number} caller {caller} {asked} -> {told}"
    if call[0] == "commit":
        for place, op in enumerate(call[2]):
            yield f" {operation_line(op)}" + (f" -> {answer[2][place].reply}" if answer[0] == "committed" else "")


def same(want, lines, at):
    """The lines of the report from here on are the wanted ones; the place behind them."""
    for line in want:
        if at >= len(lines) or lines[at] != line:
            raise Differs(f"line {at + 1} of the report should be: {line}")
        at += 1
    return at


def replayed(design, scripts, report):
    """Goes through a report of scripts, and takes from it nothing but who calls next. It gives the state at the end; what differs is
    raised."""
    if not report.endswith("\n"):
        raise Differs("the report should end with a line feed")
    lines = report.split("\n")[:-1]
    state = State(design)
    sessions = [Session(steps, state) for steps in scripts]
    at, number = same(["history"], lines, 0), 0
    state.steps = []
    while at < len(lines) and (found := re.match(r"[0-9]+ caller ([0-9]+) ", lines[at])):
        caller = int(found[1])
        if caller >= len(sessions) or sessions[caller].wanted is None:
            raise Differs(f"line {at + 1} of the report is a call of caller {caller}, who should make none")
        call = sessions[caller].wanted
        answer = state.answer(caller, call)
        state.steps.append((call, answer))
        at = same(event_lines(state, number, caller, call, answer), lines, at)
        number += 1
        sessions[caller].take(answer)
    for caller, session in enumerate(sessions):
        if session.wanted is not None:
            raise Differs(f"caller {caller} should go on with {session.wanted[0]}")
        at = same([f"script {caller}"] + session.said, lines, at)
    at = same(["design"] + canonical(state.versions[-1]).split("\n")[:-1], lines, at)
    if at < len(lines):
        raise Differs(f"line {at + 1} of the report should not be there")
    return state
