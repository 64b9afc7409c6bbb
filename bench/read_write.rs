//! Writes the canonical text of a design.
use crate::read_design::*;
use crate::read_output::Output;
use crate::read_spelling::digits;
use crate::read_words::{Place, Words};
use std::io;

/// The most nets of the row of an array.
const MOST_ROW: usize = 65_536;

pub fn write(design: &Design) -> io::Result<()> {
    let placing = (Vec::new(), vec![Rows::default(); design.cells.len()]);
    let mut writer = Writer { design, words: &design.words, out: Output::new()?, placing };
    writer.file();
    writer.out.finish()
}

struct Writer<'d> {
    design: &'d Design<'d>,
    words: &'d Words<'d>,
    out: Output,
    /// What stands behind the name of an instance for its cell, and for each cell where that is, once it was placed.
    placing: (Vec<u8>, Vec<Rows>),
}

fn is_numbered(text: &[u8], base: &[u8], open: u8, digits: &[u8], close: u8) -> bool {
    let ending = text.strip_prefix(base).and_then(|rest| rest.strip_prefix(&[open]));
    ending.and_then(|rest| rest.strip_suffix(&[close])) == Some(digits)
}

impl Writer<'_> {
    #[inline]
    fn put(&mut self, bytes: &[u8]) {
        self.out.put(bytes);
    }

    /// An identifier, behind `&` where it begins with no letter.
    #[inline]
    fn ident(&mut self, id: u32) {
        if !self.words.head(id).0.to_le_bytes()[0].is_ascii_alphabetic() {
            self.put(b"&");
        }
        self.out.put_word(self.words, id);
    }

    #[inline]
    fn text(&mut self, text: Place) {
        self.out.put(self.words.bytes(text));
    }

    #[inline]
    fn name(&mut self, name: &Name) {
        let Some(shown) = name.shown else {
            return self.ident(name.id);
        };
        self.put(b"(rename ");
        self.ident(name.id);
        self.put(b" \"");
        self.text(shown);
        self.put(b"\")");
    }

    /// A blank and a form with a string, where there is one.
    fn perhaps(&mut self, open: &[u8], text: Option<Place>) {
        if let Some(text) = text {
            self.put(open);
            self.text(text);
            self.put(b"\")");
        }
    }

    fn property(&mut self, property: &Property) {
        self.put(b"(property ");
        self.name(&property.key);
        match property.value {
            Value::Boolean(true) => self.put(b" (boolean (true))"),
            Value::Boolean(false) => self.put(b" (boolean (false))"),
            Value::Integer(number) => {
                self.put(b" (integer ");
                self.out.put_integer(number);
                self.put(b")");
            }
            Value::Number(number) => {
                self.put(b" (number ");
                self.out.put_integer(number);
                self.put(b")");
            }
            Value::Scaled(mantissa, exponent) => {
                self.put(b" (number (e ");
                self.out.put_integer(mantissa);
                self.put(b" ");
                self.out.put_integer(i64::from(exponent));
                self.put(b"))");
            }
            Value::Text(text) => {
                self.put(b" (string \"");
                self.text(text);
                self.put(b"\")");
            }
        }
        self.perhaps(b" (owner \"", property.owner);
        self.put(b")");
    }

    /// Properties, each behind a blank, or a line feed and blanks.
    #[inline]
    fn properties(&mut self, between: &[u8], properties: Rows) {
        for property in properties.of(&self.design.properties) {
            self.put(between);
            self.property(property);
        }
    }

    fn file(&mut self) {
        let design = self.design;
        self.put(b"(edif ");
        self.name(&design.title);
        self.put(b"\n (edifVersion 2 0 0)\n (edifLevel 0)\n (keywordMap (keywordLevel 0))");
        for lib in &design.libs {
            self.library(lib);
        }
        if let Some(top) = &design.top {
            self.top(top);
        }
        self.put(b")\n");
    }

    /// The cells of a file stand behind those that they place, which is the order in which they are written.
    fn library(&mut self, lib: &Lib) {
        self.put(if lib.external { b"\n (external " } else { b"\n (library " });
        self.name(&lib.name);
        self.put(b"\n  (edifLevel 0)\n  (technology (numberDefinition))");
        for cell in lib.cells.of(&self.design.cells) {
            self.cell(cell);
        }
        self.put(b")");
    }

    fn cell(&mut self, cell: &Cell) {
        self.put(b"\n  (cell ");
        self.name(&cell.name);
        self.put(b" (cellType ");
        self.put(cell.kind);
        self.put(b")");
        self.properties(b"\n   ", cell.properties);
        self.put(b"\n   (view ");
        self.name(&cell.view);
        self.put(b" (viewType NETLIST)\n    (interface");
        for port in cell.ports.of(&self.design.ports) {
            self.port(port);
        }
        self.properties(b"\n     ", cell.interface_properties);
        self.put(b")");
        self.properties(b"\n    ", cell.view_properties);
        if !cell.leaf {
            self.contents(cell);
        }
        self.put(b"))");
    }

    fn port(&mut self, port: &Port) {
        self.put(b"\n     (port ");
        if port.array == 0 {
            self.name(&port.name);
        } else {
            self.put(b"(array ");
            self.name(&port.name);
            self.put(b" ");
            self.out.put_number(u64::from(port.array));
            self.put(b")");
        }
        if let Some(direction) = port.direction {
            self.put(b" (direction ");
            self.put(direction);
            self.put(b")");
        }
        self.perhaps(b" (designator \"", port.designator);
        self.properties(b" ", port.properties);
        self.put(b")");
    }

    fn contents(&mut self, cell: &Cell) {
        let design = self.design;
        self.put(b"\n    (contents");
        let insts = cell.insts.of(&design.insts);
        for inst in insts {
            self.put(b"\n     (instance ");
            self.name(&inst.name);
            self.placing(inst.of);
            self.perhaps(b" (designator \"", inst.designator);
            self.properties(b" ", inst.properties);
            self.put(b")");
        }
        let mut nets = cell.nets.of(&design.nets);
        while let [net, ..] = nets {
            let width = self.run(nets);
            self.net(insts, net, width);
            nets = &nets[width..];
        }
        self.put(b")");
    }

    /// What an instance says of its cell.
    #[inline]
    fn placing(&mut self, of: u32) {
        if self.placing.1[of as usize].len() == 0 {
            self.add_placing(of);
        }
        self.out.put(self.placing.1[of as usize].of(&self.placing.0));
    }

    fn add_placing(&mut self, of: u32) {
        let cell = &self.design.cells[of as usize];
        let text = &mut self.placing.0;
        let first = text.len();
        let ids = [cell.view.id, cell.name.id, self.design.libs[cell.lib as usize].name.id];
        for (open, id) in [" (viewRef ", " (cellRef ", " (libraryRef "].into_iter().zip(ids) {
            let id = self.words.word(id);
            text.extend_from_slice(open.as_bytes());
            text.extend_from_slice(if id[0].is_ascii_alphabetic() { b"" } else { b"&" });
            text.extend_from_slice(id);
        }
        text.extend_from_slice(b")))");
        self.placing.1[of as usize] = Rows::new(first, text.len());
    }

    /// The identifier and the text of the array whose first net has this name.
    fn array_of(&self, name: &Name) -> Option<(&[u8], &[u8])> {
        let text = self.words.bytes(name.shown?).strip_suffix(b"[0]")?;
        let id = self.words.word(name.id).strip_suffix(b"_0_").filter(|id| !id.is_empty())?;
        Some((id, text))
    }

    fn array(&mut self, net: &Net, width: usize) {
        let Some((id, text)) = self.array_of(&net.name) else {
            return;
        };
        let (id, text) = (id.to_vec(), text.to_vec());
        self.put(if id == text { b"(array " } else { b"(array (rename " });
        self.put(if id[0].is_ascii_alphabetic() { b"" } else { b"&" });
        self.put(&id);
        if id != text {
            self.put(b" \"");
            self.put(&text);
            self.put(b"\")");
        }
        self.put(b" ");
        self.out.put_number(width as u64);
        self.put(b")");
    }

    /// A net, or the row of one array that begins with it.
    fn net(&mut self, insts: &[Inst], net: &Net, width: usize) {
        self.put(b"\n     (net ");
        if width > 1 {
            self.array(net, width);
        } else {
            self.name(&net.name);
        }
        self.put(b" (joined");
        for end in net.ends.of(&self.design.ends) {
            let port = &self.design.ports[end.port as usize];
            if port.array == 0 || width > 1 {
                self.put(b" (portRef ");
                self.ident(port.name.id);
            } else {
                self.put(b" (portRef (member ");
                self.ident(port.name.id);
                self.put(b" ");
                self.out.put_number(u64::from(end.bit));
                self.put(b")");
            }
            if let Some(inst) = insts.get(end.inst as usize) {
                self.put(b" (instanceRef ");
                self.ident(inst.name.id);
                self.put(b")");
            }
            self.put(b")");
        }
        self.put(b")");
        self.properties(b" ", net.properties);
        self.put(b")");
    }

    /// How many of these nets, from the first one on, are the row of one array.
    fn run(&self, nets: &[Net]) -> usize {
        let first = &nets[0];
        let Some((id, text)) = self.array_of(&first.name) else {
            return 1;
        };
        let design = self.design;
        let ends = first.ends.of(&design.ends);
        let mut widths = ends.iter().map(|end| design.ports[end.port as usize].array);
        let width = widths.next();
        let most = width.map_or(MOST_ROW, |width| width as usize);
        if most < 2 || !widths.all(|other| Some(other) == width) {
            return 1;
        }
        let is_next = |number: usize, net: &Net| {
            let mut buffer = [0; 20];
            let digits = digits(number as u64, &mut buffer);
            let others = net.ends.of(&design.ends);
            is_numbered(self.words.word(net.name.id), id, b'_', digits, b'_')
                && net.name.shown.is_some_and(|shown| is_numbered(self.words.bytes(shown), text, b'[', digits, b']'))
                && others.len() == ends.len()
                && ends.iter().zip(others).all(|(a, b)| (b.inst, b.port, b.bit) == (a.inst, a.port, number as u32))
                && self.equal(net.properties, first.properties)
        };
        let run = nets.iter().take(most).enumerate().take_while(|(number, net)| is_next(*number, net)).count();
        if run < most && width.is_some() {
            1
        } else {
            run.max(1)
        }
    }

    fn equal(&self, some: Rows, others: Rows) -> bool {
        let text = |place: Option<Place>| place.map(|place| self.words.bytes(place));
        let value = |a, b| match (a, b) {
            (Value::Boolean(a), Value::Boolean(b)) => a == b,
            (Value::Integer(a), Value::Integer(b)) | (Value::Number(a), Value::Number(b)) => a == b,
            (Value::Scaled(a, n), Value::Scaled(b, m)) => (a, n) == (b, m),
            (Value::Text(a), Value::Text(b)) => text(Some(a)) == text(Some(b)),
            _ => false,
        };
        let equal = |a: &Property, b: &Property| {
            let names = a.key.id == b.key.id && text(a.key.shown) == text(b.key.shown);
            names && value(a.value, b.value) && text(a.owner) == text(b.owner)
        };
        let (some, others) = (some.of(&self.design.properties), others.of(&self.design.properties));
        some.len() == others.len() && some.iter().zip(others).all(|(a, b)| equal(a, b))
    }

    fn top(&mut self, top: &Top) {
        let design = self.design;
        let cell = &design.cells[top.cell as usize];
        self.put(b"\n (design ");
        self.name(&top.name);
        self.put(b" (cellRef ");
        self.ident(cell.name.id);
        self.put(b" (libraryRef ");
        self.ident(design.libs[cell.lib as usize].name.id);
        self.put(b"))");
        self.properties(b"\n  ", top.properties);
        for note in &design.notes {
            self.put(b"\n  (userData netdb_note (path");
            for step in note.path.of(&design.steps) {
                self.put(b" ");
                self.ident(*step);
            }
            self.put(b") ");
            self.property(&note.property);
            self.put(b")");
        }
        self.put(b")");
    }
}
