"""The flattening of a design (docs/flattening.md), and its lines."""
from .design import End, cell_words, occurrences
from .text import quoted


def effective(design, path):
    """The properties of an occurrence."""
    base, cell = design.top.properties, design.top.cell
    for step in path:
        inst = design.cell(cell).inst(step)
        base, cell = inst.properties, inst.of
    here = {n.property.name.id: n.property for n in design.notes if n.path == path}
    keys = {p.name.id for p in base}
    return [here.get(p.name.id, p) for p in base] + [p for key, p in here.items() if key not in keys]


class Nets:
    """The nets of all occurrences, each by path and identifier, and of each the first that is connected with it."""

    def __init__(self, design):
        self.cells = dict(occurrences(design))
        self.joined = {path: {end: net.name.id for net in design.cell(id).nets() for end in net.ends} for path, id in self.cells.items()}
        order = [(path, net.name.id) for path, id in self.cells.items() for net in design.cell(id).nets()]
        self.rank = {net: i for i, net in enumerate(order)}
        self.meets = {net: [] for net in order}
        for path in self.cells:
            for end, net in self.joined[path].items():
                if end.inst is not None:
                    below = path + (end.inst,)
                    inner = self.joined[below].get(End(None, end.port, end.bit))
                    if inner is not None:
                        self.meets[(path, net)].append((below, inner))
                        self.meets[(below, inner)].append((path, net))
        self.first = {}
        for net in order:  # the first of all that are connected comes first
            if net not in self.first:
                self.reach(net)

    def reach(self, first):
        waiting = [first]
        while waiting:
            net = waiting.pop()
            if net not in self.first:
                self.first[net] = first
                waiting += self.meets[net]

    def at_pin(self, path, port, bit):
        """The first net at a bit of an occurrence, none where no net joins it."""
        at, end = (path[:-1], End(path[-1], port, bit)) if path else ((), End(None, port, bit))
        net = self.joined[at].get(end)
        return None if net is None else self.first[(at, net)]


def flattening(design):
    """The items, each a kind, the path, and what it shows."""
    nets = Nets(design)
    for path, id in occurrences(design):
        cell = design.cell(id)
        yield "inst", path, id, effective(design, path)
        for net in cell.nets():
            yield "net", path, net.name.id, nets.first[(path, net.name.id)]
        if not path or cell.contents is None:
            for place, port in enumerate(cell.ports):
                for bit in range(port.bits()):
                    yield "pin", path, (port.name.id, bit), nets.at_pin(path, place, bit)


def item_lines(design):
    for kind, path, what, shown in flattening(design):
        if kind == "inst":
            lib, cell = cell_words(design, what)
            yield " ".join(["inst", path_text(path), lib, cell] + [shown_property(p) for p in shown])
        else:
            name = what if kind == "net" else f"{what[0]} {what[1]}"
            yield f"{kind} {path_text(path)} {name} " + ("-" if shown is None else f"{path_text(shown[0])} {shown[1]}")


def path_text(path):
    return "/" + "/".join(path)


def shown_property(found):
    return f"{found.name.id}={shown_value(found.value)}"


def shown_value(value):
    kind, held = value
    if kind == "boolean":
        return "true" if held else "false"
    if kind == "scaled":
        return f"n{held[0]}e{held[1]}"
    return {"integer": str, "number": lambda n: f"n{n}", "string": quoted}[kind](held)
