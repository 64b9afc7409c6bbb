"""Draws designs at random, and spells each as a file in one of its many ways."""
from dataclasses import replace

from .design import Cell, Contents, Design, Inst, Lib, Name, Net, Note, Port, Property, Top, occurrences
from .text import array_of, ident


def draw_text(draw):
    return "".join(chr(draw.choice([9, 10, 34, 37, 65, 91, 126, 127, 200, draw.randrange(256)])) for _ in range(draw.randrange(5)))


def perhaps(draw, make):
    return make(draw) if draw.random() < 0.3 else None


def draw_name(draw, base):
    return Name(base, perhaps(draw, draw_text))


def draw_properties(draw, most):
    keys = draw.sample(["K", "k", "INIT", "_1", "7x"], draw.randrange(most + 1))
    return tuple(Property(draw_name(draw, key), draw_value(draw), perhaps(draw, draw_text)) for key in keys)


def draw_value(draw):
    kind = draw.choice(["boolean", "integer", "number", "scaled", "string"])
    held = {"boolean": draw.random() < 0.5, "string": draw_text(draw), "scaled": (draw.randrange(-99, 99), draw.randrange(-9, 9))}
    return kind, held.get(kind, draw.choice([0, -1, 5, 2**63 - 1, -(2**63)]))


def draw_port(draw, number):
    return Port(draw_name(draw, draw.choice(["p", "_p", "2p"]) + str(number)), draw.choice([None, None, 1, 2, 3]),
                draw.choice([None, "INPUT", "OUTPUT", "INOUT"]), perhaps(draw, draw_text), draw_properties(draw, 1))


def draw_cell(draw, name, earlier):
    """A cell; earlier ones, by their places, may be placed in it."""
    cell = Cell(draw_name(draw, name), draw.choice(["GENERIC", "TIE", "RIPPER"]), view=draw_name(draw, "v"), properties=draw_properties(draw, 1),
                view_properties=draw_properties(draw, 1), interface_properties=draw_properties(draw, 1))
    cell = replace(cell, ports=tuple(draw_port(draw, number) for number in range(draw.randrange(5))))
    if not earlier or draw.random() < 0.3:
        return cell
    insts = tuple(Inst(draw_name(draw, f"i{i}"), draw.choice(list(earlier)), perhaps(draw, draw_text), draw_properties(draw, 2))
                  for i in range(draw.randrange(4)))
    holders = {None: cell} | {inst.name.id: earlier[inst.of] for inst in insts}
    ends = [end for inst, holder in holders.items() for end in holder.port_ends(inst)]
    rows = [draw_row(draw, holders, ends, number) for number in range(draw.randrange(3))]
    draw.shuffle(ends)
    nets = [Net(draw_name(draw, draw.choice(["n", "_n", "0n"]) + str(i)), (), draw_properties(draw, 1)) for i in range(draw.randrange(6))]
    for end in ends:
        if nets and draw.random() < 0.8:
            at = draw.randrange(len(nets))
            nets[at] = replace(nets[at], ends=nets[at].ends + (end,))
    for row in rows:
        at = draw.randrange(len(nets) + 1)
        nets[at:at] = row
    return replace(cell, contents=Contents(insts, tuple(nets)))


def draw_row(draw, holders, ends, number):
    """Nets that look like those of one array, with whole array ports, which are taken out of the ends; some of them are no such row."""
    width = draw.choice([1, 2, 2, 3, 3, 4, 11])
    wide = [end for end in ends if end.bit == 0 and width > 1 and holders[end.inst].ports[end.port].width == width]
    wide = draw.sample(wide, draw.randrange(min(len(wide), 3) + 1))
    for end in wide:
        for bit in range(width):
            ends.remove(replace(end, bit=bit))
    base = draw.choice(["b", "_b", "0b"]) + str(number)
    shown = draw.choice([base, "bus", draw_text(draw)])
    properties = draw_properties(draw, 1)
    row = [Net(Name(f"{base}_{k}_", f"{shown}[{k}]"), tuple(replace(end, bit=k) for end in wide), properties) for k in range(width)]
    spoil = draw.choice([None, None, None, spoil_name, spoil_shown, spoil_properties, spoil_bit, spoil_places, spoil_order, spoil_count])
    if spoil:
        spoil(draw, row)
    return row


def spoil_name(draw, row):
    for k, net in enumerate(row):
        row[k] = replace(net, name=replace(net.name, id=net.name.id.replace(f"_{k}_", f"_{k + 1}_")))


def spoil_shown(draw, row):
    shown, at = draw.choice([None, "x"]), draw.randrange(len(row))
    row[at] = replace(row[at], name=replace(row[at].name, shown=shown))


def spoil_properties(draw, row):
    properties, at = draw_properties(draw, 2), draw.randrange(len(row))
    row[at] = replace(row[at], properties=properties)


def spoil_bit(draw, row):
    one, other = draw.randrange(len(row)), draw.randrange(len(row))
    if one != other and row[one].ends:
        first, second = row[one].ends, row[other].ends
        row[one] = replace(row[one], ends=second[:1] + first[1:])
        row[other] = replace(row[other], ends=first[:1] + second[1:])


def spoil_places(draw, row):
    at = draw.randrange(len(row))
    row[at] = replace(row[at], ends=row[at].ends[::-1])


def spoil_order(draw, row):
    row.reverse()


def spoil_count(draw, row):
    row.pop(draw.randrange(len(row)))


def draw_design(draw):
    libs, cells = [], {}
    for place, name in enumerate(["a", "b"][: draw.randrange(1, 3)]):
        libs.append(Lib(draw_name(draw, name), draw.random() < 0.3))
        for slot in range(draw.randrange(1, 4)):
            cells[place, slot] = draw_cell(draw, f"{name}{slot}", dict(cells))
            libs[-1] = replace(libs[-1], cells=libs[-1].cells + (cells[place, slot],))
    design = Design(Name("e"), tuple(libs), Top(draw_name(draw, "d"), list(cells)[-1], draw_properties(draw, 2)))
    places, notes = [path for path, _ in occurrences(design) if path], {}
    for _ in range(draw.randrange(4) if places else 0):
        path = draw.choice(places)
        found = Property(draw_name(draw, draw.choice(["K", "INIT", "k"])), draw_value(draw))
        notes.setdefault((path, found.name.id), Note(path, found))
    return replace(design, title=draw_name(draw, "e"), notes=tuple(notes.values()))


# ---- the same design as a file that is spelled another way: the forms that may stand in any order are mixed, comments stand among them,
# keywords and references are in any letter case, and white space, strings and numbers are spelled at random


def mixed(draw, *groups):
    """The groups, each in its order, one among the other."""
    turns = [i for i, group in enumerate(groups) for _ in group]
    draw.shuffle(turns)
    left = [list(group) for group in groups]
    found = [left[i].pop(0) for i in turns]
    while draw.random() < 0.2:
        found.insert(draw.randrange(len(found) + 1), draw.choice(["(comment \"c\")", "(userData x (any 1 \"%1%\"))"]))
    return found


def blank(draw):
    return "".join(draw.choice(" \t\n\r\f") for _ in range(draw.randrange(1, 3)))


def form(draw, keyword, *arguments):
    keyword = draw.choice(["", "&"]) + any_case(draw, keyword)
    return f"({blank(draw)[1:]}{keyword}{''.join(blank(draw) + a for a in arguments)}{blank(draw)[1:]})"


def any_case(draw, text):
    return "".join(draw.choice([c.lower(), c.upper()]) for c in text)


def loose_ident(draw, name):
    return draw.choice([ident(name), "&" + name])


def loose_ref(draw, name):
    return loose_ident(draw, any_case(draw, name))


def loose_string(draw, text):
    out = ""
    for char in text:
        escape = "%" + blank(draw)[1:] + draw.choice(["", "0"]) + str(ord(char)) + blank(draw)[1:] + "%"
        out += escape if char in '"%' or draw.random() < 0.3 else char
    return '"' + out + '"'


def loose_integer(draw, number):
    sign = "-" if number < 0 else draw.choice(["", "+"])
    return sign + draw.choice(["", "00"]) + str(abs(number))


def loose_name(draw, name):
    if name.shown is None:
        return loose_ident(draw, name.id)
    return form(draw, "rename", loose_ident(draw, name.id), loose_string(draw, name.shown))


def loose_value(draw, value):
    kind, held = value
    if kind == "boolean":
        return form(draw, "boolean", form(draw, "true" if held else "false"))
    if kind == "scaled":
        return form(draw, "number", form(draw, "e", *[loose_integer(draw, n) for n in held]))
    return form(draw, kind, loose_string(draw, held) if kind == "string" else loose_integer(draw, held))


def loose_texts(draw, keyword, text):
    return [] if text is None else [form(draw, keyword, loose_string(draw, text))]


def loose_property(draw, found):
    return form(draw, "property", loose_name(draw, found.name), loose_value(draw, found.value), *loose_texts(draw, "owner", found.owner))


def loose_properties(draw, properties):
    return [loose_property(draw, p) for p in properties]


def loose_end(draw, design, cell, end):
    found = design.port_at(cell, end)
    name = loose_ref(draw, found.name.id)
    if found.bits() > 1 or draw.random() < 0.3:
        name = form(draw, "member", name, loose_integer(draw, end.bit))
    return form(draw, "portRef", name, *loose_inst_ref(draw, end))


def loose_whole(draw, design, cell, end):
    instance = loose_inst_ref(draw, end)
    return form(draw, "portRef", loose_ref(draw, design.port_at(cell, end).name.id), *instance)


def loose_inst_ref(draw, end):
    return [] if end.inst is None else [form(draw, "instanceRef", loose_ref(draw, end.inst))]


def loose_cell_ref(draw, design, id, lib):
    """A reference to a cell, which may leave out its library where it is this one."""
    at_home = lib == id[0] and draw.random() < 0.5
    held, found = design.libs[id[0]], design.cell(id)
    return form(draw, "cellRef", loose_ref(draw, found.name.id), *([] if at_home else [form(draw, "libraryRef", loose_ref(draw, held.name.id))]))


def loose_port(draw, port):
    name = loose_name(draw, port.name)
    if port.width is not None:
        name = form(draw, "array", name, loose_integer(draw, port.width))
    direction = [] if port.direction is None else [form(draw, "direction", any_case(draw, port.direction))]
    return form(draw, "port", name, *mixed(draw, direction, loose_texts(draw, "designator", port.designator), loose_properties(draw, port.properties)))


def loose_contents(draw, design, lib, cell):
    insts = [form(draw, "instance", loose_name(draw, i.name),
                  form(draw, "viewRef", loose_ref(draw, design.cell(i.of).view.id), loose_cell_ref(draw, design, i.of, lib)),
                  *mixed(draw, loose_texts(draw, "designator", i.designator), loose_properties(draw, i.properties))) for i in cell.insts()]
    return form(draw, "contents", *mixed(draw, insts, list(loose_nets(draw, design, cell))))


def loose_nets(draw, design, cell):
    """The nets, some of them as rows of arrays: of any number that is the row of one, and not of the greatest alone."""
    nets, at = cell.nets(), 0
    while at < len(nets):
        widths = [w for w in range(1, len(nets) - at + 1) if array_of(design, cell, nets[at : at + w])]
        net, width = nets[at], draw.choice([0] + widths)
        name, ends = loose_name(draw, net.name), [loose_end(draw, design, cell, e) for e in net.ends]
        if width:
            base, text = array_of(design, cell, nets[at : at + width])
            shown = None if text == base and draw.random() < 0.5 else text
            name = form(draw, "array", loose_name(draw, Name(base, shown)), loose_integer(draw, width))
        if width > 1:
            ends = [loose_whole(draw, design, cell, e) for e in net.ends]
        yield form(draw, "net", name, form(draw, "joined", *ends), *mixed(draw, loose_properties(draw, net.properties)))
        at += max(width, 1)


def loose_cell(draw, design, lib, cell):
    interface = form(draw, "interface", *mixed(draw, [loose_port(draw, p) for p in cell.ports], loose_properties(draw, cell.interface_properties)))
    contents = [] if cell.contents is None else [loose_contents(draw, design, lib, cell)]
    view = form(draw, "view", loose_name(draw, cell.view), form(draw, "viewType", any_case(draw, "NETLIST")), interface,
                *mixed(draw, contents, loose_properties(draw, cell.view_properties)))
    kind = form(draw, "cellType", any_case(draw, cell.kind))
    return form(draw, "cell", loose_name(draw, cell.name), kind, *mixed(draw, [view], loose_properties(draw, cell.properties)))


def loose_level(draw):
    return form(draw, "edifLevel", loose_integer(draw, 0))


def loose(draw, design):
    """A file that means the design."""
    libs = [form(draw, "external" if lib.external else "library", loose_name(draw, lib.name), loose_level(draw), form(draw, "technology"),
                 *mixed(draw, [loose_cell(draw, design, place, cell) for cell in lib.cells])) for place, lib in enumerate(design.libs)]
    notes = [form(draw, "userData", any_case(draw, "netdb_note"), form(draw, "path", *[loose_ref(draw, s) for s in n.path]),
                  loose_property(draw, n.property)) for n in design.notes]
    cell = loose_cell_ref(draw, design, design.top.cell, None)
    named = form(draw, "design", loose_name(draw, design.top.name), cell, *mixed(draw, loose_properties(draw, design.top.properties), notes))
    version = form(draw, "edifVersion", *[loose_integer(draw, n) for n in [2, 0, 0]])
    keywords = form(draw, "keywordMap", form(draw, "keywordLevel", "0"))
    heads = [loose_name(draw, design.title), version, loose_level(draw), keywords]
    return blank(draw) + form(draw, "edif", *heads, *mixed(draw, libs), named) + blank(draw)
