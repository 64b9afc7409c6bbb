"""Designs as plain values. Texts are strings with a character for each byte."""
from dataclasses import dataclass


@dataclass(frozen=True)
class Name:
    id: str
    shown: str | None = None

    def display(self):
        return self.id if self.shown is None else self.shown


@dataclass(frozen=True)
class Property:
    name: Name
    value: tuple  # a kind, and what it holds
    owner: str | None = None


@dataclass(frozen=True)
class Port:
    name: Name
    width: int | None = None
    direction: str | None = None
    designator: str | None = None
    properties: tuple = ()

    def bits(self):
        return 1 if self.width is None else self.width


@dataclass(frozen=True)
class Inst:
    name: Name
    of: tuple  # the place of its library, and its place there
    designator: str | None = None
    properties: tuple = ()


@dataclass(frozen=True)
class End:
    inst: str | None  # the instance's identifier, none for the cell's own port
    port: int
    bit: int


@dataclass(frozen=True)
class Net:
    name: Name
    ends: tuple = ()
    properties: tuple = ()


@dataclass(frozen=True)
class Contents:
    insts: tuple = ()
    nets: tuple = ()


@dataclass(frozen=True)
class Cell:
    name: Name
    kind: str = "GENERIC"
    properties: tuple = ()
    view: Name = Name("netlist")
    view_properties: tuple = ()
    interface_properties: tuple = ()
    ports: tuple = ()
    contents: Contents | None = None

    def insts(self):
        return () if self.contents is None else self.contents.insts

    def nets(self):
        return () if self.contents is None else self.contents.nets

    def inst(self, name):
        return next((i for i in self.insts() if i.name.id == name), None)

    def net(self, name):
        return next((n for n in self.nets() if n.name.id == name), None)

    def port_ends(self, inst=None):
        """The bits of its ports as ends: its own, or those of an instance of it."""
        return [End(inst, place, bit) for place, port in enumerate(self.ports) for bit in range(port.bits())]


@dataclass(frozen=True)
class Lib:
    name: Name
    external: bool = False
    cells: tuple = ()


@dataclass(frozen=True)
class Top:
    name: Name
    cell: tuple
    properties: tuple = ()


@dataclass(frozen=True)
class Note:
    path: tuple
    property: Property


@dataclass(frozen=True)
class Design:
    title: Name
    libs: tuple = ()
    top: Top | None = None
    notes: tuple = ()

    def cell(self, id):
        return self.libs[id[0]].cells[id[1]]

    def port_at(self, cell, end):
        """The port of an end in the contents of a cell."""
        return (cell if end.inst is None else self.cell(cell.inst(end.inst).of)).ports[end.port]

    def lib_named(self, name):
        return next((i for i, lib in enumerate(self.libs) if lib.name.id == name), None)

    def cell_named(self, lib, name):
        return next(((lib, i) for i, c in enumerate(self.libs[lib].cells) if c.name.id == name), None)


def occurrences(design, cell=None, path=()):
    """The paths of the occurrences, by identifiers, with their cells, in path order."""
    cell = design.top.cell if cell is None else cell
    yield path, cell
    for inst in design.cell(cell).insts():
        yield from occurrences(design, inst.of, path + (inst.name.id,))


def cell_words(design, id):
    return design.libs[id[0]].name.id, design.cell(id).name.id
