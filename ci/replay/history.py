"""The state of a shared design, and which answer each call has (docs/history.md)."""
from model.design import cell_words

from .operations import run


class State:
    """What the events so far have come to."""

    def __init__(self, design):
        self.versions = [design]
        self.written = [set()]  # by each version's commit
        self.kept = [0]
        self.pins = {}  # the live ones by number: the caller and the version
        self.made = 0

    def head(self):
        return len(self.versions) - 1

    def answer(self, caller, call):
        """The answer to a call, which is told as words, and what more a commit tells; the state goes on."""
        verb = call[0]
        return getattr(self, "on_" + verb.replace("-", "_"))(caller, *call[1:])

    def hold(self, caller, version):
        number = self.made
        self.made += 1
        self.pins[number] = (caller, version)
        return ("pin", number, version)

    def on_pin(self, caller):
        return self.hold(caller, self.head())

    def on_pin_at(self, caller, version):
        if version > self.head():
            return ("no-version", self.head())
        if version not in self.kept:
            return ("gone", min(self.kept))
        return self.hold(caller, version)

    def own(self, caller, number):
        """The version of a live pin of the caller."""
        holder, version = self.pins[number]
        assert holder == caller
        return version

    def on_release(self, caller, number):
        self.own(caller, number)
        del self.pins[number]
        return ("released",)

    def on_collect(self, caller):
        held = {version for _, version in self.pins.values()} | {self.head()}
        kept = [version for version in self.kept if version in held]
        dropped = len(self.kept) - len(kept)
        self.kept = kept
        return ("collected", dropped)

    def on_commit(self, caller, number, ops):
        version = self.own(caller, number)
        reads = set().union(*(step.needs for step in run(self.versions[version], ops)))
        clashes = [(thing, -later) for later in range(version + 1, self.head() + 1) for thing in reads & self.written[later]]
        if clashes:
            thing, later = min(clashes)
            return ("conflict", thing, -later)
        steps = run(self.versions[-1], ops)
        assert [step.reply for step in run(self.versions[version], ops)] == [step.reply for step in steps]
        self.versions.append(steps[-1].design if steps else self.versions[-1])
        self.written.append(set().union(*(step.writes for step in steps)))
        self.kept.append(self.head())
        return ("committed", self.head(), steps)


def object_words(design, thing):
    kind, *place = thing
    if kind == 3:
        return "notes"
    if kind == 0:
        return f"directory {design.libs[place[0]].name.id}"
    return " ".join([{1: "interface", 2: "contents"}[kind], *cell_words(design, tuple(place))])
