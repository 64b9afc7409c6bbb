"""Draws designs and scripts at random. Names come from small sets, so that they meet: equal ones, ones that are the same ignoring
case, and ones that operations would give."""
from model.design import Cell, Contents, Design, End, Inst, Lib, Name, Net, Note, Port, Property, Top, cell_words, occurrences
from model.text import quoted

MOST_OCCURRENCES = 40

CELLS = ["C", "c_u1", "C_U2", "P", "Q", "T", "n0", "N0", "3x"]
INSTS = ["i", "j", "i_j", "I_J_1", "k", "i_k", "u1", "7"]
NETS = ["X", "Y", "m", "M", "i_m", "i_X", "s", "_0"]
PORTS = ["a", "b", "d", "D", "q"]
KEYS = ["K", "k", "INIT", "_1"]


def some(draw, chance):
    return draw.random() < chance


def text(draw):
    return "".join(chr(draw.choice([32, 34, 37, 65, 91, 126, 200, draw.randrange(256)])) for _ in range(draw.randrange(4)))


def perhaps(draw, make):
    return make(draw) if some(draw, 0.2) else None


def named(draw, id):
    return Name(id, perhaps(draw, text))


def value(draw):
    kind = draw.choice(["boolean", "integer", "number", "scaled", "string"])
    held = {"boolean": some(draw, 0.5), "string": text(draw), "scaled": (draw.randrange(-99, 99), draw.randrange(-9, 9))}
    return kind, held.get(kind, draw.choice([0, -1, 5, 2**63 - 1, -(2**63)]))


def properties(draw, most):
    return tuple(Property(named(draw, key), value(draw), perhaps(draw, text)) for key in draw.sample(KEYS, draw.randrange(most + 1)))


# ---- designs


def ports(draw):
    return tuple(Port(named(draw, id), draw.choice([None, None, None, 1, 2, 3]), draw.choice([None, "INPUT", "OUTPUT", "INOUT"]), perhaps(draw, text),
                      properties(draw, 1)) for id in draw.sample(PORTS, draw.randrange(4)))


def contents(draw, own, earlier):
    """The contents of a cell with these ports; earlier cells with their ports may be placed."""
    placed = [(id, *draw.choice(earlier)) for id in draw.sample(INSTS, draw.randrange(4))] if earlier else []
    insts = tuple(Inst(named(draw, id), of, perhaps(draw, text), properties(draw, 2)) for id, of, _ in placed)
    ends = [End(None, place, bit) for place, port in enumerate(own) for bit in range(port.bits())]
    ends += [End(id, place, bit) for id, _, found in placed for place, port in enumerate(found) for bit in range(port.bits())]
    draw.shuffle(ends)
    joined = {id: [] for id in draw.sample(NETS, draw.randrange(6))}
    for end in ends:
        if joined and some(draw, 0.8):
            joined[draw.choice(list(joined))].append(end)
    return Contents(insts, tuple(Net(named(draw, id), tuple(found), properties(draw, 1)) for id, found in joined.items()))


def libraries(draw):
    libs, earlier = [], []
    for place, id in enumerate(["w", "z"][: draw.randrange(1, 3)]):
        cells = []
        for slot, cell in enumerate(draw.sample(CELLS, draw.randrange(1, 5))):
            own = ports(draw)
            inner = None if some(draw, 0.3) else contents(draw, own, earlier)
            cells.append(Cell(named(draw, cell), draw.choice(["GENERIC", "TIE", "RIPPER"]), properties(draw, 1), named(draw, "v"), properties(draw, 1),
                              properties(draw, 1), own, inner))
            earlier.append(((place, slot), own))
        libs.append(Lib(named(draw, id), some(draw, 0.2), tuple(cells)))
    return tuple(libs), [id for id, _ in earlier]


def notes(draw, made):
    paths = [path for path, _ in occurrences(made) if path]
    found = {}
    for _ in range(draw.randrange(4) if paths else 0):
        note = Note(draw.choice(paths), Property(named(draw, draw.choice(KEYS)), value(draw)))
        found[(note.path, note.property.name.id)] = note
    return tuple(found.values())


def design(draw):
    while True:
        libs, cells = libraries(draw)
        made = Design(named(draw, "e"), libs)
        if some(draw, 0.05):
            return made
        top = cells[-1] if some(draw, 0.8) else draw.choice(cells)
        made = Design(made.title, libs, Top(named(draw, "d"), top, properties(draw, 2)))
        if sum(1 for _ in occurrences(made)) <= MOST_OCCURRENCES:
            return Design(made.title, libs, made.top, notes(draw, made))


# ---- operations


class Names:
    """Names for operations: mostly those that are there."""

    def __init__(self, draw, design):
        self.draw, self.design = draw, design
        self.cells = [(lib, slot) for lib, found in enumerate(design.libs) for slot in range(len(found.cells))]
        self.paths = [path for path, _ in occurrences(design) if path] if design.top is not None else []

    def id(self, verb=""):
        """A cell, mostly one with instances or nets, and of blocks, where the operation speaks of such."""
        fits = [id for id in self.cells if WANTS.get(verb, lambda design, cell: True)(self.design, self.design.cell(id))]
        return self.draw.choice(fits if fits and some(self.draw, 0.8) else self.cells)

    def words(self, id):
        lib, cell = cell_words(self.design, id)
        if some(self.draw, 0.1):
            return [self.draw.choice(["w", "z", "W"]), self.draw.choice(CELLS)]
        return [lib, cell]

    def one(self, there, others):
        return self.draw.choice(there) if there and some(self.draw, 0.75) else self.draw.choice(others)

    def inst(self, id):
        return self.one([i.name.id for i in self.design.cell(id).insts()], INSTS)

    def block_inst(self, id):
        blocks = [i.name.id for i in self.design.cell(id).insts() if self.design.cell(i.of).contents is not None]
        return self.draw.choice(blocks) if blocks and some(self.draw, 0.7) else self.inst(id)

    def net(self, id):
        return self.one([n.name.id for n in self.design.cell(id).nets()], NETS)

    def end(self, id, joined):
        """An instance or `-`, a port, and a bit: mostly one that is joined, or one that is not."""
        cell = self.design.cell(id)
        inst = "-" if some(self.draw, 0.25) else self.inst(id)
        found = cell.inst(inst)
        holder = cell if inst == "-" else self.design.cell(found.of) if found else cell
        ends = own_ends(self.design, cell, joined)
        if ends and some(self.draw, 0.7):
            end = self.draw.choice(ends)
            holder = cell if end.inst is None else self.design.cell(cell.inst(end.inst).of)
            return ["-" if end.inst is None else end.inst, holder.ports[end.port].name.id, str(end.bit)]
        port = self.one([p.name.id for p in holder.ports], PORTS)
        return [inst, port, self.draw.choice(["", "0"]) + str(self.draw.choice([0, 0, 0, 1, 2, 7]))]

    def path(self):
        steps = self.draw.choice(self.paths) if self.paths and some(self.draw, 0.85) else (self.draw.choice(INSTS),)
        return "/".join(steps + ((self.draw.choice(INSTS),) if some(self.draw, 0.1) else ()))

    def value(self):
        kind, held = value(self.draw)
        if kind == "boolean":
            return ["true" if held else "false"]
        if kind == "string":
            return ["str", quoted(held)]
        if kind == "scaled":
            return ["num", str(held[0]), "e", f"{held[1]:+}"]
        return [{"integer": "int", "number": "num"}[kind], self.draw.choice(["{}", "{:+}", "{:05}"]).format(held)]

    def keyed(self):
        return [self.draw.choice(KEYS)] + self.value()

    def port(self):
        width = self.draw.choice(["", "", ":1", ":4", ":002"])
        return f"{self.draw.choice(PORTS)}:{self.draw.choice(['in', 'out', 'inout', 'none'])}{width}"

    def operation(self):
        draw = self.draw
        verb = draw.choice(VERBS)
        id = self.id(verb)
        at = self.words(id)
        made = {
            "show-cell": lambda: at,
            "show-net": lambda: at + [self.net(id)],
            "show-inst": lambda: at + [self.inst(id)],
            "add-cell": lambda: [at[0], draw.choice(CELLS), draw.choice(["leaf", "empty"])] + [self.port() for _ in range(draw.randrange(3))],
            "add-net": lambda: at + [draw.choice(NETS)],
            "drop-net": lambda: at + [self.net(id)],
            "add-inst": lambda: at + [draw.choice(INSTS)] + self.words(self.id()),
            "drop-inst": lambda: at + [self.inst(id)],
            "join": lambda: at + [self.net(id)] + self.end(id, False),
            "cut": lambda: at + self.end(id, True),
            "set-prop": lambda: at + draw.choice([["cell"], ["inst", self.inst(id)], ["net", self.net(id)]]) + self.keyed(),
            "set-note": lambda: [self.path()] + self.keyed(),
            "drop-note": lambda: self.dropped_note(),
            "uniquify": lambda: [],
            "unique-path": lambda: [self.path()],
            "ungroup": lambda: at + [self.block_inst(id)],
        }
        return [verb] + made[verb]()

    def dropped_note(self):
        if self.design.notes and some(self.draw, 0.7):
            note = self.draw.choice(self.design.notes)
            return ["/".join(note.path), note.property.name.id]
        return [self.path(), self.draw.choice(KEYS)]


def own_ends(design, cell, joined):
    """The ends of a cell that a net joins, or that none does."""
    taken = {e for n in cell.nets() for e in n.ends}
    if joined:
        return sorted(taken, key=str)
    ends = cell.port_ends() + [end for i in cell.insts() for end in design.cell(i.of).port_ends(i.name.id)]
    return [end for end in ends if end not in taken]


# Which cells an operation may do something with.
WANTS = {
    "drop-net": lambda design, cell: cell.nets(),
    "show-net": lambda design, cell: cell.nets(),
    "add-net": lambda design, cell: cell.contents,
    "add-inst": lambda design, cell: cell.contents,
    "show-inst": lambda design, cell: cell.insts(),
    "drop-inst": lambda design, cell: cell.insts(),
    "join": lambda design, cell: cell.nets() and own_ends(design, cell, False),
    "cut": lambda design, cell: own_ends(design, cell, True),
    "ungroup": lambda design, cell: any(design.cell(i.of).contents for i in cell.insts()),
}

VERBS = ["show-cell", "show-net", "show-inst", "add-cell", "add-net", "add-net", "drop-net", "add-inst", "drop-inst", "join", "join", "cut", "set-prop",
         "set-prop", "set-note", "drop-note", "uniquify", "unique-path", "ungroup", "ungroup"]


# ---- scripts


def block(draw, names):
    retries = draw.choice([[], [], ["retry", str(draw.randrange(4))], ["retry", "016"]])
    yield ["begin"] + retries
    for _ in range(draw.choice([0, 1, 1, 2, 3, 5])):
        yield names.operation()
    yield ["abandon"] if some(draw, 0.1) else ["commit"]


def held(draw):
    yield ["pin"] if some(draw, 0.6) else ["pin-at", draw.choice(["0", "0", "1", "2", "03", "9"])]
    for _ in range(draw.randrange(4)):
        yield draw.choice([["walk"], ["walk", "limit", str(draw.randrange(1, 30))], ["collect"]])
    yield ["release"]


def script_lines(draw, names):
    for _ in range(draw.randrange(1, 6)):
        part = draw.choice(["block", "block", "block", "held", "held", "collect"])
        if part == "collect":
            yield ["collect"]
        else:
            yield from block(draw, names) if part == "block" else held(draw)


BAD = ["frob", "begin retry 17", "walk limit 0", "begin begin", "pin-at -1", "add-net w", 'set-prop w A cell K str "%"', "commit commit", "show-cell w-x T"]


def spelled(draw, words):
    line = draw.choice(["", "", " ", "\t"])
    for word in words:
        line += word + draw.choice([" ", " ", "\t", "  "])
    return line.rstrip() if some(draw, 0.8) and words[-1][-1] != '"' else line


def script(draw, names):
    """The text of a script; now and then it ends within a block or with a pin, or has a bad line."""
    lines = [spelled(draw, words) for words in script_lines(draw, names)]
    if some(draw, 0.15):
        lines = lines[: draw.randrange(1, len(lines) + 1)]
    if some(draw, 0.01):
        lines.insert(draw.randrange(len(lines) + 1), draw.choice(BAD))
    while some(draw, 0.3):
        lines.insert(draw.randrange(len(lines) + 1), draw.choice(["", "# commit", " \t", "  #x"]))
    ended = [line + draw.choice(["\n", "\n", "\r\n"]) for line in lines[:-1]] + lines[-1:]
    return "".join(ended) + draw.choice(["", "\n"])


def scripts(draw, design):
    names = Names(draw, design)
    return [script(draw, names) for _ in range(draw.randrange(2, 9))]
