"""What has to hold of designs before and after an operation on copies or an ungroup, told by names (docs/uniquify.md,
docs/ungroup.md), and what a run did, counted."""
from collections import Counter

from model.design import cell_words, occurrences
from model.flat import Nets, flattening

from .scripts import Differs


def check(state):
    """The laws hold of each operation of an accepted commit."""
    for call, answer in state.steps:
        if answer[0] == "committed":
            for step in answer[2]:
                if not step.refused and step.before.top is not None:
                    CHECKS.get(step.op[0], lambda step: None)(step)


def differs(step, what):
    raise Differs(f"after {step.op} {what}")


def without_blocks(design):
    """The flattening, with the cells of blocks left out and other cells by name."""
    return [(kind, path, *known(design, kind, what), shown) for kind, path, what, shown in flattening(design)]


def known(design, kind, what):
    if kind != "inst":
        return [what]
    return ["block"] if design.cell(what).contents is not None else cell_words(design, what)


def places(design):
    return Counter(id for path, id in occurrences(design) if path and design.cell(id).contents is not None)


def check_copies(step):
    if without_blocks(step.before) != without_blocks(step.design):
        differs(step, "the flattening is another one")
    for (lib, slot), count in places(step.design).items():
        is_new = slot >= len(step.before.libs[lib].cells)
        if count > 1 and (is_new or step.op[0] == "uniquify"):
            differs(step, f"the cell {cell_words(step.design, (lib, slot))} is at {count} paths")


def check_ungroup(step):
    _, lib, cell, inst = step.op
    id = step.before.cell_named(step.before.lib_named(lib), cell)
    before, after = Nets(step.before), Nets(step.design)

    def path_image(path):
        return step.image_of_path(path, id, inst)

    def net_image(net):
        path, name = net
        if before.cells[path] == id:
            return path, step.images[("outer", name)]
        if path and path[-1] == inst and before.cells[path[:-1]] == id:
            return path[:-1], step.images[("inner", name)]
        return path_image(path), name

    stay = [(path_image(path), of) for path, of in before.cells.items() if path_image(path) is not None]
    if stay != list(after.cells.items()):
        differs(step, "other occurrences are there")
    for net, first in before.first.items():
        if after.first[net_image(net)] != net_image(first):
            differs(step, f"the net {net} has another first one")
    for path, of in before.cells.items():
        image = path_image(path)
        if image is None:
            continue
        for place, port in enumerate(step.before.cell(of).ports):
            for bit in range(port.bits()):
                first = before.at_pin(path, place, bit)
                if after.at_pin(image, place, bit) != (None if first is None else net_image(first)):
                    differs(step, f"bit {bit} of {port.name.id} at {path} has another net")
    if shown_properties(step.before, path_image) != shown_properties(step.design, lambda path: path):
        differs(step, "other properties are shown")


def shown_properties(design, image):
    return [(image(path), shown) for kind, path, _, shown in flattening(design) if kind == "inst" and image(path) is not None]


CHECKS = {"uniquify": check_copies, "unique-path": check_copies, "ungroup": check_ungroup}


class Counts(Counter):
    """How often calls were answered so, and how often operations of accepted commits were done or refused."""

    @staticmethod
    def of(state):
        counts = Counts(events=len(state.steps))
        for call, answer in state.steps:
            counts[answer[0]] += 1
            if answer[0] == "committed":
                for step in answer[2]:
                    counts[step.op[0]] += not step.refused
                    counts["refused"] += step.refused
        return counts

    def __add__(self, other):
        return Counts({key: self[key] + other[key] for key in self.keys() | other.keys()})

    def __str__(self):
        return ", ".join(f"{key} {self[key]}" for key in sorted(self))
