"""Other reports of the same scripts, drawn at random: a report with one byte changed, one with two events of different callers in each
other's place, and one of another order of calls, which is made here from nothing. Which of them are true is for a replay to say."""
import re

from model.text import canonical

from .history import State
from .scripts import Session, event_lines

EVENT = re.compile(r"([0-9]+) caller ([0-9]+) (.*)")


def with_a_byte_changed(draw, report):
    """One byte is another one, or is left out, or stands twice."""
    place = draw.randrange(len(report))
    byte = report[place]
    other = draw.choice([chr((ord(byte) + draw.choice([1, -1, 32])) % 256), chr(draw.randrange(256)), draw.choice("0123456789 \n"), "", byte * 2])
    return report[:place] + other + report[place + 1 :]


def events_of(report):
    """The events of a report, each as its caller, its line behind them and the lines below it; and what stands behind the events."""
    lines = report.split("\n")
    events, at = [], 1
    while at < len(lines) and (found := EVENT.fullmatch(lines[at])):
        at += 1
        below = []
        while at < len(lines) and lines[at].startswith(" "):
            below.append(lines[at])
            at += 1
        events.append((found[2], found[3], below))
    return events, lines[at:]


def report_of(events, behind):
    lines = ["history"]
    for number, (caller, told, below) in enumerate(events):
        lines += [f"{number} caller {caller} {told}", *below]
    return "\n".join(lines + behind)


def renumbered(events):
    """The events with their pins numbered in their order."""
    numbers, made = {}, []
    for caller, told, below in events:
        if found := re.fullmatch("(.*) -> pin ([0-9]+) version ([0-9]+)", told):
            numbers[found[2]] = len(numbers)
            told = f"{found[1]} -> pin {numbers[found[2]]} version {found[3]}"
        elif found := re.fullmatch("(release|commit) pin ([0-9]+) -> (.*)", told):
            told = f"{found[1]} pin {numbers.get(found[2], found[2])} -> {found[3]}"
        made.append((caller, told, below))
    return made


def with_two_swapped(draw, report):
    """Two events of different callers change places, often neighbours; nothing where there are none. Often pins are numbered anew."""
    events, behind = events_of(report)
    near = [(i, i + 1) for i in range(len(events) - 1) if events[i][0] != events[i + 1][0]]
    far = [(i, j) for j in range(len(events)) for i in range(j) if events[i][0] != events[j][0]]
    if not far:
        return None
    first, second = draw.choice(near if near and draw.random() < 0.7 else far)
    events[first], events[second] = events[second], events[first]
    return report_of(renumbered(events) if draw.random() < 0.7 else events, behind)


def in_another_order(draw, design, scripts):
    """The report of the scripts where callers are drawn."""
    state = State(design)
    sessions = [Session(steps, state) for steps in scripts]
    lines, number = ["history"], 0
    events = []
    while waiting := [caller for caller, session in enumerate(sessions) if session.wanted is not None]:
        caller = draw.choice(waiting)
        call = sessions[caller].wanted
        answer = state.answer(caller, call)
        events.append((caller, call, answer))
        sessions[caller].take(answer)
    for number, (caller, call, answer) in enumerate(events):
        lines += event_lines(state, number, caller, call, answer)
    for caller, session in enumerate(sessions):
        lines += [f"script {caller}", *session.said]
    return "\n".join(lines + ["design", canonical(state.versions[-1])])
