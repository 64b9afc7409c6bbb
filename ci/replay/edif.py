"""Reads a design from a file whose keywords are in any letter case and whose names are spelled as they are defined."""
import re

from model.design import Cell, Contents, Design, End, Inst, Lib, Name, Net, Note, Port, Property, Top

TOKEN = re.compile(r'\s+|\(|\)|"[^"]*"|[^\s()"]+')


class Text(str):
    """What a string stands for."""


def decoded(string):
    parts = string[1:-1].split("%")
    return Text("".join(part if place % 2 == 0 else "".join(chr(int(c)) for c in part.split()) for place, part in enumerate(parts)))


def tree_of(text):
    """The file's form, a list of its keyword in lower case and its arguments."""
    stack = [[]]
    for token in TOKEN.findall(text):
        if token == "(":
            stack.append([])
        elif token == ")":
            form = stack.pop()
            stack[-1].append([form[0].lower()] + form[1:] if form and not isinstance(form[0], list) else form)
        elif token[0] == '"':
            stack[-1].append(decoded(token))
        elif token.strip():
            stack[-1].append(token.removeprefix("&"))
    return stack[0][0]


def those(form, *keywords):
    return [f for f in form[1:] if isinstance(f, list) and f[0] in keywords]


def one(form, keyword):
    return next(iter(those(form, keyword)), None)


def name_of(part):
    return Name(part[1], str(part[2])) if isinstance(part, list) else Name(part)


def text_of(form, keyword):
    found = one(form, keyword)
    return None if found is None else str(found[1])


def value_of(form):
    kind, held = form[0], form[1]
    if kind == "boolean":
        return kind, held[0] == "true"
    if kind == "number" and isinstance(held, list):
        return "scaled", (int(held[1]), int(held[2]))
    return kind, str(held) if kind == "string" else int(held)


def properties_of(form):
    return tuple(Property(name_of(p[1]), value_of(p[2]), text_of(p, "owner")) for p in those(form, "property"))


def port_of(form):
    array = isinstance(form[1], list) and form[1][0] == "array"
    direction = one(form, "direction")
    return Port(name_of(form[1][1] if array else form[1]), int(form[1][2]) if array else None, direction and direction[1].upper(),
                text_of(form, "designator"), properties_of(form))


class Reader:
    def __init__(self, tree):
        self.libs = []
        for form in those(tree, "library", "external"):
            self.libs.append(Lib(name_of(form[1]), form[0] == "external"))
            for cell in those(form, "cell"):
                made = self.cell(cell)
                self.libs[-1] = Lib(self.libs[-1].name, self.libs[-1].external, self.libs[-1].cells + (made,))
        top, notes = one(tree, "design"), ()
        if top is not None:
            notes = tuple(Note(tuple(n[2][1:]), properties_of(["", *n[3:]])[0]) for n in those(top, "userdata") if n[1].lower() == "netdb_note")
            top = Top(name_of(top[1]), self.id(top[2]), properties_of(top))
        self.design = Design(name_of(tree[1]), tuple(self.libs), top, notes)

    def id(self, ref):
        named = one(ref, "libraryref")
        lib = next(i for i, found in enumerate(self.libs) if named is None and i + 1 == len(self.libs) or named and found.name.id == named[1])
        return lib, next(i for i, c in enumerate(self.libs[lib].cells) if c.name.id == ref[1])

    def cell(self, form):
        view = one(form, "view")
        interface, contents = one(view, "interface"), one(view, "contents")
        ports = tuple(port_of(p) for p in those(interface, "port"))
        return Cell(name_of(form[1]), one(form, "celltype")[1].upper(), properties_of(form), name_of(view[1]), properties_of(view),
                    properties_of(interface), ports, None if contents is None else self.contents(contents, ports))

    def contents(self, form, ports):
        insts = tuple(Inst(name_of(i[1]), self.id(i[2][2]), text_of(i, "designator"), properties_of(i)) for i in those(form, "instance"))
        return Contents(insts, tuple(Net(name_of(n[1]), tuple(self.end(e, ports, insts) for e in those(n[2], "portref")), properties_of(n))
                                     for n in those(form, "net")))

    def end(self, form, ports, insts):
        named = one(form, "instanceref")
        if named is not None:
            lib, slot = next(i.of for i in insts if i.name.id == named[1])
            ports = self.libs[lib].cells[slot].ports
        port, bit = (form[1][1], int(form[1][2])) if isinstance(form[1], list) else (form[1], 0)
        return End(named and named[1], next(i for i, p in enumerate(ports) if p.name.id == port), bit)


def read(text):
    return Reader(tree_of(text)).design
