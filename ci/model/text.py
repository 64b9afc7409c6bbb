"""The canonical text of a design (docs/edif-profile.md)."""
from .design import Name, cell_words


def quoted(text):
    """A string as a file has it: bytes that can't stand for themselves by their codes, each longest run of them together."""
    out, codes = "", []
    for char in text:
        if " " <= char <= "~" and char not in '"%':
            out += ("%" + " ".join(codes) + "%" if codes else "") + char
            codes = []
        else:
            codes.append(str(ord(char)))
    return '"' + out + ("%" + " ".join(codes) + "%" if codes else "") + '"'


def ident(name):
    return name if name[0].isalpha() else "&" + name


def name_text(name):
    return ident(name.id) if name.shown is None else f"(rename {ident(name.id)} {quoted(name.shown)})"


def value_text(value):
    kind, held = value
    if kind == "boolean":
        return "(boolean (true))" if held else "(boolean (false))"
    if kind == "scaled":
        return f"(number (e {held[0]} {held[1]}))"
    return f"({kind} {quoted(held) if kind == 'string' else held})"


def property_text(found):
    owner = "" if found.owner is None else f" (owner {quoted(found.owner)})"
    return f"(property {name_text(found.name)} {value_text(found.value)}{owner})"


def tail_text(part):
    designator = "" if part.designator is None else f" (designator {quoted(part.designator)})"
    return designator + "".join(" " + property_text(p) for p in part.properties)


def cell_ref(design, id):
    lib, cell = cell_words(design, id)
    return f"(cellRef {ident(cell)} (libraryRef {ident(lib)}))"


def end_text(design, cell, end):
    port = design.port_at(cell, end)
    name = ident(port.name.id) if port.width is None else f"(member {ident(port.name.id)} {end.bit})"
    return port_ref(name, end)


def whole_text(design, cell, end):
    """The whole port of an end."""
    return port_ref(ident(design.port_at(cell, end).name.id), end)


def port_ref(name, end):
    return f"(portRef {name}" + ("" if end.inst is None else f" (instanceRef {ident(end.inst)})") + ")"


def port_text(port):
    name = name_text(port.name) if port.width is None else f"(array {name_text(port.name)} {port.width})"
    return f"(port {name}" + ("" if port.direction is None else f" (direction {port.direction})") + tail_text(port) + ")"


def large(level, head, inner):
    """A large form: its head, and each inner form on a line of its own."""
    return head + "".join("\n" + " " * level + form for form in inner) + ")"


def contents_text(design, cell):
    insts = [f"(instance {name_text(i.name)} (viewRef {ident(design.cell(i.of).view.id)} {cell_ref(design, i.of)}){tail_text(i)})"
             for i in cell.insts()]
    return large(5, "(contents", insts + list(net_texts(design, cell)))


def net_texts(design, cell):
    """The nets, each greatest run as one net with an array."""
    nets, at = cell.nets(), 0
    while at < len(nets):
        width = greatest_run(design, cell, at)
        if width == 1:
            yield net_text(nets[at], name_text(nets[at].name), [end_text(design, cell, e) for e in nets[at].ends])
        else:
            base, text = array_of(design, cell, nets[at : at + width])
            name = f"(array {name_text(Name(base, None if text == base else text))} {width})"
            yield net_text(nets[at], name, [whole_text(design, cell, e) for e in nets[at].ends])
        at += width


def net_text(net, name, ends):
    return f"(net {name} (joined{''.join(' ' + e for e in ends)}){''.join(' ' + property_text(p) for p in net.properties)})"


def greatest_run(design, cell, at):
    """The greatest width, from 2 on, of which nets from this one on are the row of one array."""
    nets = cell.nets()
    if base_of(nets[at].name) is None:
        return 1
    return max((w for w in range(2, len(nets) - at + 1) if array_of(design, cell, nets[at : at + w])), default=1)


def base_of(name):
    """The identifier and the text of the array of which a net may be number 0."""
    if name.id.endswith("_0_") and len(name.id) > 3 and (name.shown or "").endswith("[0]"):
        return name.id[:-3], name.shown[:-3]
    return None


def array_of(design, cell, nets):
    """The identifier and the text of the array for which these nets are the row, whatever their number; none where they are no row."""
    found = base_of(nets[0].name)
    if found is None:
        return None
    for k, net in enumerate(nets):
        named = (net.name.id, net.name.shown) == (f"{found[0]}_{k}_", f"{found[1]}[{k}]")
        if not named or net.properties != nets[0].properties or len(net.ends) != len(nets[0].ends):
            return None
        for one, end in zip(nets[0].ends, net.ends):
            if len(nets) > 1 and ((end.inst, end.port, k) != (one.inst, one.port, end.bit) or design.port_at(cell, end).width != len(nets)):
                return None
    return found


def cell_text(design, cell):
    inner = [large(5, "(interface", [port_text(p) for p in cell.ports] + [property_text(p) for p in cell.interface_properties])]
    inner += [property_text(p) for p in cell.view_properties]
    inner += [] if cell.contents is None else [contents_text(design, cell)]
    view = large(4, f"(view {name_text(cell.view)} (viewType NETLIST)", inner)
    return large(3, f"(cell {name_text(cell.name)} (cellType {cell.kind})", [property_text(p) for p in cell.properties] + [view])


def arranged(design, lib):
    """The cells of a library in the order in which they are written: again and again the first one of which all that it places
    from this library is written."""
    left, done = list(range(len(design.libs[lib].cells))), set()
    while left:
        ready = next(slot for slot in left if all(i.of[0] != lib or i.of[1] in done for i in design.cell((lib, slot)).insts()))
        left.remove(ready)
        done.add(ready)
        yield design.cell((lib, ready))


def canonical(design):
    inner = ["(edifVersion 2 0 0)", "(edifLevel 0)", "(keywordMap (keywordLevel 0))"]
    for place, lib in enumerate(design.libs):
        head = f"({'external' if lib.external else 'library'} {name_text(lib.name)}"
        cells = [cell_text(design, cell) for cell in arranged(design, place)]
        inner.append(large(2, head, ["(edifLevel 0)", "(technology (numberDefinition))"] + cells))
    if design.top is not None:
        notes = [f"(userData netdb_note (path {' '.join(ident(s) for s in n.path)}) {property_text(n.property)})" for n in design.notes]
        inner.append(large(2, f"(design {name_text(design.top.name)} {cell_ref(design, design.top.cell)}",
                           [property_text(p) for p in design.top.properties] + notes))
    return large(1, f"(edif {name_text(design.title)}", inner) + "\n"
