"""The operations (docs/operations.md, docs/uniquify.md, docs/ungroup.md): what each replies and changes, and the objects that it needs
and writes. An operation is the tuple of its verb and its words. An object is a tuple that sorts as objects do: its kind, and its places."""
from dataclasses import replace

from model.design import Cell, Contents, End, Inst, Name, Net, Note, Port, cell_words, occurrences
from model.flat import shown_property

MOST_CELLS, MOST_PORTS, MOST_BITS, MOST_INSTS, MOST_NETS, MOST_ENDS, MOST_NOTES = 65536, 65536, 1048576, 1048576, 1048576, 4194304, 1048576

NOTES = (3,)


def directory(lib):
    return (0, lib)


def interface(id):
    return (1, *id)


def contents(id):
    return (2, *id)


class Refusal(Exception):
    """The reply of an operation that is refused."""


class Step:
    """One operation on a design: its reply, what it needs and writes, and the design afterwards."""

    def __init__(self, design, op):
        self.before = self.design = design
        self.op, self.needs, self.writes = op, set(), set()
        verb, words = op[0], op[1:]
        try:
            self.reply = getattr(self, verb.replace("-", "_"))(*words) or "done"
            self.refused = False
        except Refusal as refusal:
            self.reply, self.design, self.writes, self.refused = str(refusal), design, set(), True

    # ---- names

    def named(self, lib, cell):
        """The cell of these names, with what the names need."""
        place = self.design.lib_named(lib)
        if place is None:
            return None, "no-lib"
        id = self.design.cell_named(place, cell)
        self.needs.add(directory(place) if id is None else interface(id))
        return id, "no-cell"

    def found(self, lib, cell):
        id, missing = self.named(lib, cell)
        if id is None:
            raise Refusal(missing)
        return id

    def inside(self, lib, cell):
        """The same, with its contents, which are needed too."""
        id = self.found(lib, cell)
        self.needs.add(contents(id))
        return id, self.design.cell(id)

    # ---- changes

    def set_cell(self, id, cell):
        lib = self.design.libs[id[0]]
        cells = lib.cells[: id[1]] + (cell,) + lib.cells[id[1] + 1 :]
        self.design = replace(self.design, libs=self.design.libs[: id[0]] + (replace(lib, cells=cells),) + self.design.libs[id[0] + 1 :])

    def set_inside(self, id, **parts):
        cell = self.design.cell(id)
        self.set_cell(id, replace(cell, contents=replace(cell.contents, **parts)))
        self.writes.add(contents(id))

    def add(self, lib, cell):
        """A new cell, which goes last in its library."""
        id = (lib, len(self.design.libs[lib].cells))
        found = self.design.libs[lib]
        self.design = replace(self.design, libs=self.design.libs[:lib] + (replace(found, cells=found.cells + (cell,)),) + self.design.libs[lib + 1 :])
        self.writes |= {directory(lib), interface(id), contents(id)}
        return id

    def set_notes(self, notes):
        if notes != self.design.notes:
            self.design = replace(self.design, notes=notes)
            self.writes.add(NOTES)

    # ---- what is shown

    def show_cell(self, lib, cell):
        _, body = self.inside(lib, cell)
        leaf = " leaf" if body.contents is None else ""
        return f"cell ports {len(body.ports)} insts {len(body.insts())} nets {len(body.nets())}{leaf}"

    def show_net(self, lib, cell, net):
        _, body = self.inside(lib, cell)
        found = body.net(net)
        if found is None:
            raise Refusal("no-net")
        told = []
        for end in found.ends:
            holder = body
            if end.inst is not None:
                of = body.inst(end.inst).of
                self.needs.add(interface(of))
                holder = self.design.cell(of)
            told.append(f" {'-' if end.inst is None else end.inst} {holder.ports[end.port].name.id} {end.bit}")
        return "ends" + ";".join(told)

    def show_inst(self, lib, cell, inst):
        _, body = self.inside(lib, cell)
        found = body.inst(inst)
        if found is None:
            raise Refusal("no-inst")
        return " ".join(["inst", *cell_words(self.design, found.of)] + [shown_property(p) for p in found.properties])

    # ---- cells and nets

    def add_cell(self, lib, cell, kind, *ports):
        place = self.design.lib_named(lib)
        if place is None:
            raise Refusal("no-lib")
        self.needs.add(directory(place))
        if is_taken(cell, self.design.libs[place].cells) or len({name.lower() for name, _, _ in ports}) < len(ports):
            raise Refusal("taken")
        for count, most in [(len(self.design.libs[place].cells) + 1, MOST_CELLS), (len(ports), MOST_PORTS), (sum(w or 1 for _, _, w in ports), MOST_BITS)]:
            if count > most:
                raise Refusal(f"too-many {most}")
        made = tuple(Port(Name(name), width, direction) for name, direction, width in ports)
        self.add(place, Cell(Name(cell), ports=made, contents=None if kind == "leaf" else Contents()))

    def add_net(self, lib, cell, net):
        id, body = self.inside(lib, cell)
        if body.contents is None:
            raise Refusal("is-leaf")
        if is_taken(net, body.nets()):
            raise Refusal("taken")
        if len(body.nets()) >= MOST_NETS:
            raise Refusal(f"too-many {MOST_NETS}")
        self.set_inside(id, nets=body.nets() + (Net(Name(net)),))

    def drop_net(self, lib, cell, net):
        id, body = self.inside(lib, cell)
        if body.net(net) is None:
            raise Refusal("no-net")
        self.set_inside(id, nets=tuple(n for n in body.nets() if n.name.id != net))

    # ---- instances

    def add_inst(self, lib, cell, inst, of_lib, of_cell):
        id, missing = self.named(lib, cell)
        of, of_missing = self.named(of_lib, of_cell)
        if id is None:
            raise Refusal(missing)
        if of is None:
            raise Refusal(of_missing)
        below = cells_below(self.design, of)
        self.needs |= {contents(id), contents(of)} | {contents(c) for c in below}
        body = self.design.cell(id)
        if body.contents is None:
            raise Refusal("is-leaf")
        if is_taken(inst, body.insts()):
            raise Refusal("taken")
        if of[0] > id[0]:
            raise Refusal("later-library")
        if of == id or id in below:
            raise Refusal("is-cyclic")
        if len(body.insts()) >= MOST_INSTS:
            raise Refusal(f"too-many {MOST_INSTS}")
        self.set_inside(id, insts=body.insts() + (Inst(Name(inst), of),))

    def see_notes(self):
        """The notes, and the contents of each cell that a path of a note reaches."""
        self.needs.add(NOTES)
        for note in self.design.notes:
            self.needs |= {contents(c) for c in cells_along(self.design, note.path)}

    def placed(self, lib, cell, inst):
        """An instance, with the notes, which are needed whether it is there or not."""
        id, body = self.inside(lib, cell)
        self.see_notes()
        found = body.inst(inst)
        if found is None:
            raise Refusal("no-inst")
        return id, body, found

    def drop_inst(self, lib, cell, inst):
        id, body, _ = self.placed(lib, cell, inst)
        notes = tuple(n for n in self.design.notes if place_in(self.design, n.path, id, inst) is None)
        nets = tuple(replace(n, ends=tuple(e for e in n.ends if e.inst != inst)) for n in body.nets())
        self.set_inside(id, insts=tuple(i for i in body.insts() if i.name.id != inst), nets=nets)
        self.set_notes(notes)

    # ---- ends

    def end_of(self, body, inst, port, bit):
        """The end of these names: the port is that of the cell itself, or of an instance that is there."""
        of = body if inst is None else self.design.cell(body.inst(inst).of)
        place = next((i for i, p in enumerate(of.ports) if p.name.id == port), None)
        if place is None:
            raise Refusal("no-port")
        if bit >= of.ports[place].bits():
            raise Refusal(f"bad-bit {of.ports[place].bits()}")
        return End(inst, place, bit)

    def holder(self, lib, cell, inst):
        id, body = self.inside(lib, cell)
        if inst is not None:
            found = body.inst(inst)
            if found is None:
                raise Refusal("no-inst")
            self.needs.add(interface(found.of))
        return id, body

    def join(self, lib, cell, net, inst, port, bit):
        id, body = self.holder(lib, cell, inst)
        if body.net(net) is None:
            raise Refusal("no-net")
        end = self.end_of(body, inst, port, bit)
        for other in body.nets():
            if end in other.ends:
                raise Refusal(f"already-joined {other.name.id}")
        if sum(len(n.ends) for n in body.nets()) >= MOST_ENDS:
            raise Refusal(f"too-many {MOST_ENDS}")
        self.set_inside(id, nets=tuple(replace(n, ends=n.ends + (end,)) if n.name.id == net else n for n in body.nets()))

    def cut(self, lib, cell, inst, port, bit):
        id, body = self.holder(lib, cell, inst)
        end = self.end_of(body, inst, port, bit)
        if all(end not in n.ends for n in body.nets()):
            raise Refusal("not-joined")
        self.set_inside(id, nets=tuple(replace(n, ends=tuple(e for e in n.ends if e != end)) for n in body.nets()))

    # ---- properties and notes

    def set_prop(self, lib, cell, target, name, found):
        if target == "cell":
            id = self.found(lib, cell)
            body = self.design.cell(id)
            self.set_cell(id, replace(body, properties=with_property(body.properties, found)))
            self.writes.add(interface(id))
            return
        id, body = self.inside(lib, cell)
        parts, kind = (body.insts(), "insts") if target == "inst" else (body.nets(), "nets")
        if all(p.name.id != name for p in parts):
            raise Refusal(f"no-{target}")
        self.set_inside(id, **{kind: tuple(replace(p, properties=with_property(p.properties, found)) if p.name.id == name else p for p in parts)})

    def see_path(self, path):
        """The cells that a path reaches, the top first, as far as it leads, and whether that is to its end."""
        if self.design.top is None:
            raise Refusal("no-top")
        cells = cells_along(self.design, path)
        return cells, len(cells) == len(path) + 1

    def set_note(self, path, found):
        cells, leads = self.see_path(path)
        self.needs |= {NOTES} | {contents(c) for c in cells}
        if not leads:
            raise Refusal("no-path")
        note, notes = Note(path, found), self.design.notes
        at = next((i for i, n in enumerate(notes) if (n.path, n.property.name.id) == (path, found.name.id)), None)
        if at is None and len(notes) >= MOST_NOTES:
            raise Refusal(f"too-many {MOST_NOTES}")
        self.writes.add(NOTES)
        self.design = replace(self.design, notes=notes + (note,) if at is None else notes[:at] + (note,) + notes[at + 1 :])

    def drop_note(self, path, key):
        if self.design.top is None:
            raise Refusal("no-top")
        self.needs.add(NOTES)
        notes = tuple(n for n in self.design.notes if (n.path, n.property.name.id) != (path, key))
        if notes == self.design.notes:
            raise Refusal("no-note")
        self.set_notes(notes)

    # ---- copies

    def copy(self, id):
        """A copy of a cell as it was, under the first free name."""
        cell = self.before.cell(id)
        names = {c.name.id.lower() for c in self.design.libs[id[0]].cells}
        n = next(n for n in range(1, len(names) + 2) if f"{cell.name.id}_u{n}".lower() not in names)
        shown = None if cell.name.shown is None else f"{cell.name.shown}_u{n}"
        return self.add(id[0], replace(cell, name=Name(f"{cell.name.id}_u{n}", shown)))

    def turn(self, id, inst, of):
        cell = self.design.cell(id)
        self.set_inside(id, insts=tuple(replace(i, of=of) if i.name.id == inst else i for i in cell.insts()))

    def uniquify(self):
        design = self.before
        if design.top is None:
            raise Refusal("no-top")
        self.needs.add(contents(design.top.cell))
        for id in cells_below(design, design.top.cell):
            self.needs |= {interface(id), contents(id)}
            if design.cell(id).contents is not None:
                self.needs.add(directory(id[0]))
        blocks = [(path, id) for path, id in occurrences(design) if path and design.cell(id).contents is not None]
        for lib in range(len(design.libs)):
            here = [id for _, id in blocks if id[0] == lib]
            if len(design.libs[lib].cells) + len(here) - len(set(here)) > MOST_CELLS:
                raise Refusal(f"too-many {MOST_CELLS}")
        own, seen = {(): design.top.cell}, set()
        for path, id in blocks:
            own[path] = self.copy(id) if id in seen else id
            seen.add(id)
        copies = [path for path, id in blocks if own[path] != id]
        for path in copies:
            self.turn(own[path[:-1]], path[-1], own[path])
        return f"copies {len(copies)}"

    def unique_path(self, path):
        cells, leads = self.see_path(path)
        for id in cells:
            self.needs |= {interface(id), contents(id)}
        blocks = [id for id in cells[1:] if self.design.cell(id).contents is not None]
        self.needs |= {directory(id[0]) for id in blocks}
        if not leads:
            raise Refusal("no-path")
        for lib, found in enumerate(self.design.libs):
            if len(found.cells) + sum(id[0] == lib for id in blocks) > MOST_CELLS:
                raise Refusal(f"too-many {MOST_CELLS}")
        holder = cells[0]
        for step, id in zip(path, blocks):
            made = self.copy(id)
            self.turn(holder, step, made)
            holder = made
        return f"copies {len(blocks)}"

    # ---- an instance dissolved

    def ungroup(self, lib, cell, inst):
        id, body, found = self.placed(lib, cell, inst)
        self.needs |= {interface(found.of), contents(found.of)}
        inner = self.design.cell(found.of)
        if inner.contents is None:
            raise Refusal("is-leaf")
        names = children_of(body, found, inner)
        insts = []
        for outer in body.insts():
            kept = [replace(j, name=names[j.name.id]) for j in inner.insts()] if outer is found else [outer]
            insts += kept
        nets, self.images = nets_after(body, found, inner, names)
        for count, most in [(len(insts), MOST_INSTS), (len(nets), MOST_NETS), (sum(len(n.ends) for n in nets), MOST_ENDS)]:
            if count > most:
                raise Refusal(f"too-many {most}")
        self.children = {j: name.id for j, name in names.items()}
        notes = []
        for note in self.design.notes:
            path = self.image_of_path(note.path, id, inst)
            if path is not None:
                notes.append(replace(note, path=path))
        self.set_inside(id, insts=tuple(insts), nets=tuple(nets))
        self.set_notes(tuple(notes))

    def image_of_path(self, path, id, inst):
        """The path with the step through the instance and the next one made one; none where it ends at the instance."""
        at = place_in(self.before, path, id, inst)
        if at is None:
            return path
        if at + 1 == len(path):
            return None
        return path[:at] + (self.children[path[at + 1]],) + path[at + 2 :]


# ---- what operations share


def is_taken(name, parts):
    return any(p.name.id.lower() == name.lower() for p in parts)


def with_property(properties, found):
    keys = [p.name.id for p in properties]
    if found.name.id not in keys:
        return properties + (found,)
    at = keys.index(found.name.id)
    return properties[:at] + (found,) + properties[at + 1 :]


def cells_below(design, id):
    """The cells below a cell."""
    below, waiting = set(), [id]
    while waiting:
        for inst in design.cell(waiting.pop()).insts():
            if inst.of not in below:
                below.add(inst.of)
                waiting.append(inst.of)
    return below


def cells_along(design, path):
    """The top, and the cell at the end of each step as far as the path leads."""
    cells = [design.top.cell]
    for step in path:
        inst = design.cell(cells[-1]).inst(step)
        if inst is None:
            break
        cells.append(inst.of)
    return cells


def place_in(design, path, id, inst):
    """The place of the step by which a path goes through an instance of a cell, or ends at it; none where it does not."""
    for place, (cell, step) in enumerate(zip(cells_along(design, path), path)):
        if cell == id and step == inst:
            return place
    return None


def free_name(wanted, taken):
    """The wanted name, or with the first number that makes it free; it is taken from then on."""
    name = wanted if wanted.lower() not in taken else next(f"{wanted}_{n}" for n in range(1, len(taken) + 2) if f"{wanted}_{n}".lower() not in taken)
    taken.add(name.lower())
    return name


def named_below(inst, part, taken):
    return Name(free_name(f"{inst.name.id}_{part.name.id}", taken), f"{inst.name.display()}/{part.name.display()}")


def children_of(body, inst, inner):
    taken = {i.name.id.lower() for i in body.insts()}
    return {j.name.id: named_below(inst, j, taken) for j in inner.insts()}


def nets_after(body, inst, inner, names):
    """The nets after an ungroup, and which of them each net of the cell and of the instance's cell became."""
    links = {(e.port, e.bit): n.name.id for n in body.nets() for e in n.ends if e.inst == inst.name.id}
    group = {("outer", n.name.id): {("outer", n.name.id)} for n in body.nets()} | {("inner", n.name.id): {("inner", n.name.id)} for n in inner.nets()}
    for net in inner.nets():
        for end in net.ends:
            if end.inst is None and (end.port, end.bit) in links:
                both = group[("inner", net.name.id)] | group[("outer", links[(end.port, end.bit)])]
                for member in both:
                    group[member] = both
    taken = {n.name.id.lower() for n in body.nets()}
    outer, fresh, images = [], [], {}
    for net in body.nets():
        members = group[("outer", net.name.id)]
        first = next(n.name.id for n in body.nets() if ("outer", n.name.id) in members)
        images[("outer", net.name.id)] = first
        if first == net.name.id:
            ends = [e for n in body.nets() if ("outer", n.name.id) in members for e in n.ends if e.inst != inst.name.id]
            ends += [replace(e, inst=names[e.inst].id) for n in inner.nets() if ("inner", n.name.id) in members for e in n.ends if e.inst is not None]
            outer.append(replace(net, ends=tuple(ends)))
    for net in inner.nets():
        first = next((n.name.id for n in body.nets() if ("outer", n.name.id) in group[("inner", net.name.id)]), None)
        if first is None:
            name = named_below(inst, net, taken)
            first = name.id
            fresh.append(replace(net, name=name, ends=tuple(replace(e, inst=names[e.inst].id) for e in net.ends if e.inst is not None)))
        images[("inner", net.name.id)] = first
    return outer + fresh, images


def run(design, ops):
    """The steps of operations, each on what those before it left."""
    steps = []
    for op in ops:
        steps.append(Step(design, op))
        design = steps[-1].design
    return steps
