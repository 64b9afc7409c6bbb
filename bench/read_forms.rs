//! The forms of a file, and the design that they mean, in one pass.
use crate::read_contents::Inside;
use crate::read_design::*;
use crate::read_spelling::spelled;
use crate::read_text::*;
use crate::read_words::{Place, Words};
use std::collections::{HashMap, HashSet};

const MOST_LIBS: usize = 1_024;
const MOST_CELLS: usize = 65_536;
const MOST_PORTS: usize = 65_536;
const MOST_WIDTH: i64 = 65_536;
const MOST_BITS: u32 = 1_048_576;
const MOST_NOTES: usize = 1_048_576;

/// So many ports or properties are gone over, one after another.
const FEW: usize = 16;

macro_rules! keys {
    ($($name:ident $spelling:literal),*) => {
        $(pub const $name: Key = key($spelling);)*
    };
}

keys!(
    EDIF b"edif", EDIF_VERSION b"edifVersion", EDIF_LEVEL b"edifLevel", KEYWORD_MAP b"keywordMap", KEYWORD_LEVEL b"keywordLevel",
    LIBRARY b"library", EXTERNAL b"external", TECHNOLOGY b"technology", CELL b"cell", CELL_TYPE b"cellType", VIEW b"view",
    VIEW_TYPE b"viewType", INTERFACE b"interface", PORT b"port", ARRAY b"array", DIRECTION b"direction", DESIGNATOR b"designator",
    OWNER b"owner", CONTENTS b"contents", INSTANCE b"instance", NET b"net", JOINED b"joined", PORT_REF b"portRef", MEMBER b"member",
    INSTANCE_REF b"instanceRef", LIBRARY_REF b"libraryRef", VIEW_REF b"viewRef", CELL_REF b"cellRef", PROPERTY b"property",
    BOOLEAN b"boolean", INTEGER b"integer", NUMBER b"number", STRING b"string", DESIGN b"design", RENAME b"rename",
    STATUS b"status", COMMENT b"comment", USER_DATA b"userData", TRUE b"true", FALSE b"false", E b"e", PATH b"path",
    NETDB_NOTE b"netdb_note"
);

/// Where a reference looks for what it means: among the libraries, the cells of a library, the ports from one on, which are those of a
/// cell, or the instances of a cell.
#[derive(Clone, Copy, PartialEq, Eq, Hash)]
pub enum Scope {
    Libs,
    Cells(u32),
    Ports(u32),
    Insts(u32),
}

/// The first so many items of a scope by their identifiers in lower case; nothing for one that several have.
#[derive(Default)]
struct Folded {
    listed: u32,
    items: HashMap<Vec<u8>, Option<u32>>,
}

/// What steps of paths mean: for the cells that were listed, the instances by cell and identifier.
#[derive(Default)]
struct Steps {
    listed: HashSet<u32>,
    insts: HashMap<(u32, u32), u32>,
}

/// Reads the forms of a file one after another. What a reference may mean stands before it, but for the instances of its contents.
pub struct Reader<'a> {
    pub text: Text<'a>,
    pub design: Design<'a>,
    /// For each word the library that it names, counted from one, or zero.
    libs: Vec<u32>,
    folded: HashMap<Scope, Folded>,
    /// The identifiers of all ports.
    port_ids: Vec<u32>,
    /// For each cell with many ports: these, in the order of their identifiers' numbers, in place of themselves.
    port_order: Vec<u32>,
    steps: Steps,
    pub inside: Inside,
}

/// The design of a file, behind whose bytes so many zeros stand as `BEHIND` says, or the place of a fault.
pub fn read(bytes: &[u8]) -> Result<Design<'_>, usize> {
    let design = Design {
        words: Words::new(bytes),
        title: Name { id: 0, shown: None },
        libs: Vec::new(),
        cells: Vec::new(),
        ports: Vec::new(),
        insts: Vec::with_capacity(bytes.len() / 128),
        nets: Vec::with_capacity(bytes.len() / 128),
        ends: Vec::with_capacity(bytes.len() / 64),
        properties: Vec::with_capacity(bytes.len() / 128),
        top: None,
        notes: Vec::new(),
        steps: Vec::new(),
    };
    let mut reader = Reader {
        text: Text::new(bytes),
        design,
        libs: Vec::new(),
        folded: HashMap::new(),
        port_ids: Vec::new(),
        port_order: Vec::new(),
        steps: Steps::default(),
        inside: Inside::default(),
    };
    match reader.file() {
        Ok(()) => Ok(reader.design),
        Err(Fault) => Err(reader.text.at),
    }
}

pub fn want(holds: bool) -> Read<()> {
    if holds {
        Ok(())
    } else {
        Err(Fault)
    }
}

impl Reader<'_> {
    // Parts of forms.

    #[inline]
    pub fn word(&mut self) -> Read<u32> {
        let place = self.text.word()?;
        Ok(self.design.words.number(place))
    }

    /// A string, as it is spelled.
    #[inline]
    fn string(&mut self) -> Read<Place> {
        match self.text.quoted()? {
            Quoted::Plain(place) => Ok(place),
            Quoted::Other(text) => self.design.words.keep(&[&spelled(&text)]),
        }
    }

    /// The word of a form, which is one of these.
    fn choice(&mut self, choices: &[&'static [u8]]) -> Read<&'static [u8]> {
        let word = self.text.key()?;
        let choice = choices.iter().find(|choice| key(choice) == word).ok_or(Fault)?;
        self.text.close()?;
        Ok(choice)
    }

    /// A number of a form that is this one.
    fn number(&mut self, wanted: i64) -> Read<()> {
        let number = self.text.integer()?;
        want(number == wanted)
    }

    fn level(&mut self, key: Key) -> Read<()> {
        self.text.form_of(key)?;
        self.number(0)?;
        self.text.close()
    }

    /// The one string of a form that may stand once.
    pub fn once(&mut self, text: &mut Option<Place>) -> Read<()> {
        want(text.is_none())?;
        *text = Some(self.string()?);
        self.text.close()
    }

    // Names and properties.

    #[inline]
    fn renamed(&mut self) -> Read<Name> {
        let name = Name { id: self.word()?, shown: Some(self.string()?) };
        self.text.close()?;
        Ok(name)
    }

    #[inline]
    pub fn name(&mut self) -> Read<Name> {
        if self.text.next() != b'(' {
            return Ok(Name { id: self.word()?, shown: None });
        }
        self.text.form_of(RENAME)?;
        self.renamed()
    }

    /// The name of a port or of a net, which may be an array of a width, else zero.
    #[inline]
    pub fn bus_name(&mut self) -> Read<(Name, u32)> {
        if self.text.next() != b'(' {
            return Ok((Name { id: self.word()?, shown: None }, 0));
        }
        match self.text.form()? {
            Some(RENAME) => Ok((self.renamed()?, 0)),
            Some(ARRAY) => {
                let name = self.name()?;
                let width = self.text.integer()?;
                want((1..=MOST_WIDTH).contains(&width))?;
                self.text.close()?;
                Ok((name, width as u32))
            }
            _ => Err(Fault),
        }
    }

    pub fn property(&mut self) -> Read<Property> {
        let key = self.name()?;
        let value = match self.text.form()? {
            Some(STRING) => Value::Text(self.string()?),
            Some(BOOLEAN) => self.boolean()?,
            Some(INTEGER) => Value::Integer(self.text.integer()?),
            Some(NUMBER) => self.scaled()?,
            _ => return Err(Fault),
        };
        self.text.close()?;
        let mut owner = None;
        while let Some(key) = self.text.form()? {
            match key {
                OWNER => self.once(&mut owner)?,
                COMMENT => self.text.skip()?,
                _ => return Err(Fault),
            }
        }
        Ok(Property { key, value, owner })
    }

    fn boolean(&mut self) -> Read<Value> {
        let value = match self.text.form()? {
            Some(TRUE) => Value::Boolean(true),
            Some(FALSE) => Value::Boolean(false),
            _ => return Err(Fault),
        };
        self.text.close()?;
        Ok(value)
    }

    fn scaled(&mut self) -> Read<Value> {
        if self.text.next() != b'(' {
            return Ok(Value::Number(self.text.integer()?));
        }
        self.text.form_of(E)?;
        let mantissa = self.text.integer()?;
        let exponent = self.text.integer()?.try_into().map_err(|_| Fault)?;
        self.text.close()?;
        Ok(Value::Scaled(mantissa, exponent))
    }

    /// One more property of an owner whose other forms have none.
    #[inline]
    pub fn add_property(&mut self) -> Read<()> {
        let property = self.property()?;
        self.design.properties.push(property);
        Ok(())
    }

    /// The properties that were added from a place on, whose keys differ.
    #[inline]
    pub fn properties_from(&self, from: usize) -> Read<Rows> {
        let added = &self.design.properties[from..];
        if added.len() > 1 {
            want(differ(added.iter().map(|property| property.key.id)))?;
        }
        Ok(Rows::new(from, self.design.properties.len()))
    }

    /// Adds the properties of an owner that were kept apart from those of the forms in it.
    fn properties(&mut self, mut apart: Vec<Property>) -> Read<Rows> {
        let from = self.design.properties.len();
        self.design.properties.append(&mut apart);
        self.properties_from(from)
    }

    // The file, its libraries and its cells.

    fn file(&mut self) -> Read<()> {
        self.text.form_of(EDIF)?;
        self.design.title = self.name()?;
        self.text.form_of(EDIF_VERSION)?;
        for number in [2, 0, 0] {
            self.number(number)?;
        }
        self.text.close()?;
        self.level(EDIF_LEVEL)?;
        self.text.form_of(KEYWORD_MAP)?;
        self.level(KEYWORD_LEVEL)?;
        while let Some(key) = self.text.form()? {
            want(key == COMMENT)?;
            self.text.skip()?;
        }
        while let Some(key) = self.text.form()? {
            match key {
                STATUS | COMMENT | USER_DATA => self.text.skip()?,
                LIBRARY | EXTERNAL => self.library(key == EXTERNAL)?,
                DESIGN if self.design.top.is_none() => self.design()?,
                _ => return Err(Fault),
            }
        }
        want(self.text.ends())
    }

    fn library(&mut self, external: bool) -> Read<()> {
        let own = self.design.libs.len();
        want(own < MOST_LIBS)?;
        let name = self.name()?;
        let word = name.id as usize;
        self.libs.resize(self.libs.len().max(word + 1), 0);
        want(self.libs[word] == 0)?;
        self.libs[word] = own as u32 + 1;
        let first = self.design.cells.len();
        self.design.libs.push(Lib { name, external, cells: Rows::new(first, first) });
        self.level(EDIF_LEVEL)?;
        self.text.form_of(TECHNOLOGY)?;
        self.text.skip()?;
        while let Some(key) = self.text.form()? {
            match key {
                STATUS | COMMENT | USER_DATA => self.text.skip()?,
                CELL => {
                    let cell = self.cell(own as u32)?;
                    want(self.design.cells.len() - first < MOST_CELLS)?;
                    self.add_cell(cell)?;
                }
                _ => return Err(Fault),
            }
        }
        Ok(())
    }

    fn add_cell(&mut self, cell: Cell) -> Read<()> {
        let older = cell.older.checked_sub(1).map(|older| self.design.cells[older as usize].lib);
        want(older != Some(cell.lib))?;
        let (word, lib) = (cell.name.id, cell.lib as usize);
        self.design.cells.push(cell);
        let count = self.design.cells.len() as u32;
        self.design.words.at(word).cell = count;
        self.design.libs[lib].cells.to = count;
        Ok(())
    }

    fn cell(&mut self, lib: u32) -> Read<Cell> {
        let name = self.name()?;
        self.text.form_of(CELL_TYPE)?;
        let kind = self.choice(&[b"GENERIC", b"TIE", b"RIPPER"])?;
        let mut properties = Vec::new();
        let mut cell = None;
        while let Some(key) = self.text.form()? {
            match key {
                STATUS | COMMENT | USER_DATA => self.text.skip()?,
                VIEW if cell.is_none() => cell = Some(self.view(lib)?),
                PROPERTY => properties.push(self.property()?),
                _ => return Err(Fault),
            }
        }
        let cell = cell.ok_or(Fault)?;
        let properties = self.properties(properties)?;
        Ok(Cell { name, kind, properties, older: self.design.words.at(name.id).cell, ..cell })
    }

    /// The view of a cell, as a cell whose name is still that of the view.
    fn view(&mut self, lib: u32) -> Read<Cell> {
        let view = self.name()?;
        self.text.form_of(VIEW_TYPE)?;
        self.choice(&[b"NETLIST"])?;
        self.text.form_of(INTERFACE)?;
        let none = Rows::default();
        let mut cell = Cell {
            name: view,
            lib,
            older: 0,
            kind: b"",
            properties: none,
            view,
            view_properties: none,
            interface_properties: none,
            ports: none,
            bits: 0,
            leaf: true,
            insts: none,
            nets: none,
        };
        self.interface(&mut cell)?;
        let mut properties = Vec::new();
        while let Some(key) = self.text.form()? {
            match key {
                STATUS | COMMENT | USER_DATA => self.text.skip()?,
                CONTENTS if cell.leaf => self.contents(&mut cell)?,
                PROPERTY => properties.push(self.property()?),
                _ => return Err(Fault),
            }
        }
        cell.view_properties = self.properties(properties)?;
        Ok(cell)
    }

    fn interface(&mut self, cell: &mut Cell) -> Read<()> {
        let first = self.design.ports.len();
        let mut properties = Vec::new();
        while let Some(key) = self.text.form()? {
            match key {
                PORT => {
                    let port = self.port(cell.bits)?;
                    cell.bits += port.width();
                    let count = self.design.ports.len();
                    want(count - first < MOST_PORTS && cell.bits <= MOST_BITS)?;
                    let word = self.design.words.at(port.name.id);
                    want(word.port as usize <= first)?;
                    word.port = count as u32 + 1;
                    self.port_ids.push(port.name.id);
                    self.design.ports.push(port);
                }
                PROPERTY => properties.push(self.property()?),
                COMMENT | USER_DATA => self.text.skip()?,
                _ => return Err(Fault),
            }
        }
        cell.ports = Rows::new(first, self.design.ports.len());
        self.port_order.extend(cell.ports.from..cell.ports.to);
        if cell.ports.len() > FEW {
            let ids = &self.port_ids;
            self.port_order[first..].sort_unstable_by_key(|port| ids[*port as usize]);
        }
        cell.interface_properties = self.properties(properties)?;
        Ok(())
    }

    fn port(&mut self, before: u32) -> Read<Port> {
        let (name, array) = self.bus_name()?;
        let (mut direction, mut designator) = (None, None);
        let first = self.design.properties.len();
        while let Some(key) = self.text.form()? {
            match key {
                DIRECTION if direction.is_none() => direction = Some(self.choice(&[b"INPUT", b"OUTPUT", b"INOUT"])?),
                DESIGNATOR => self.once(&mut designator)?,
                PROPERTY => self.add_property()?,
                COMMENT | USER_DATA => self.text.skip()?,
                _ => return Err(Fault),
            }
        }
        Ok(Port { name, array, before, direction, designator, properties: self.properties_from(first)? })
    }

    // References.

    /// The item of a scope, whose items these are, that alone is equal to a word ignoring case, where none is equal to it.
    #[cold]
    pub fn only(&mut self, scope: Scope, items: Rows, word: u32) -> Read<u32> {
        let design = &self.design;
        let folded = self.folded.entry(scope).or_default();
        for item in items.from + folded.listed..items.to {
            let at = item as usize;
            let id = match scope {
                Scope::Libs => design.libs[at].name.id,
                Scope::Cells(_) => design.cells[at].name.id,
                Scope::Ports(_) => design.ports[at].name.id,
                Scope::Insts(_) => design.insts[at].name.id,
            };
            let lower = design.words.word(id).to_ascii_lowercase();
            folded.items.entry(lower).and_modify(|item| *item = None).or_insert(Some(item));
        }
        folded.listed = items.to - items.from;
        folded.items.get(&design.words.word(word).to_ascii_lowercase()).copied().flatten().ok_or(Fault)
    }

    fn lib_meant(&mut self, word: u32) -> Read<u32> {
        match self.libs.get(word as usize) {
            Some(lib) if *lib > 0 => Ok(lib - 1),
            _ => self.only(Scope::Libs, Rows::new(0, self.design.libs.len()), word),
        }
    }

    /// The cell that a reference means, in the library that it names, or else in its own.
    pub fn cell_ref(&mut self, own: Option<u32>) -> Read<u32> {
        let word = self.word()?;
        let mut named = None;
        while let Some(key) = self.text.form()? {
            want(key == LIBRARY_REF && named.is_none())?;
            let lib = self.word()?;
            named = Some(self.lib_meant(lib)?);
            self.text.close()?;
        }
        let lib = named.or(own).ok_or(Fault)?;
        let mut newest = self.design.words.at(word).cell;
        while let Some(place) = newest.checked_sub(1) {
            let cell = &self.design.cells[place as usize];
            if cell.lib == lib {
                return Ok(place);
            }
            newest = cell.older;
        }
        let cells = self.design.libs[lib as usize].cells;
        self.only(Scope::Cells(lib), cells, word)
    }

    /// The port that a reference means, of a cell with these ports.
    #[inline]
    pub fn port_meant(&mut self, ports: Rows, word: u32) -> Read<u32> {
        let ids = ports.of(&self.port_ids);
        let place = if ids.len() <= FEW {
            ids.iter().position(|id| *id == word).map(|place| ports.from + place as u32)
        } else {
            let order = ports.of(&self.port_order);
            order.binary_search_by_key(&word, |port| self.port_ids[*port as usize]).ok().map(|place| order[place])
        };
        match place {
            Some(place) => Ok(place),
            None => self.only(Scope::Ports(ports.from), ports, word),
        }
    }

    // The design and its notes.

    fn design(&mut self) -> Read<()> {
        let name = self.name()?;
        self.text.form_of(CELL_REF)?;
        let cell = self.cell_ref(None)?;
        let mut properties = Vec::new();
        let mut keys = HashSet::new();
        while let Some(key) = self.text.form()? {
            match key {
                STATUS | COMMENT => self.text.skip()?,
                PROPERTY => properties.push(self.property()?),
                USER_DATA => self.user_data(cell, &mut keys)?,
                _ => return Err(Fault),
            }
        }
        let properties = self.properties(properties)?;
        self.design.top = Some(Top { name, cell, properties });
        Ok(())
    }

    /// A note by its mark; other data are skipped.
    fn user_data(&mut self, top: u32, keys: &mut HashSet<Vec<u32>>) -> Read<()> {
        let depth = self.text.depth - 1;
        let first = self.text.next();
        let is_word = first.is_ascii_alphabetic() || matches!(first, b'&' | b'_');
        if !is_word || self.text.key()? != NETDB_NOTE {
            return self.text.skip_to(depth);
        }
        want(self.design.notes.len() < MOST_NOTES)?;
        let note = self.note(top)?;
        let mut key = note.path.of(&self.design.steps).to_vec();
        key.push(note.property.key.id);
        want(keys.insert(key))?;
        self.design.notes.push(note);
        Ok(())
    }

    fn note(&mut self, top: u32) -> Read<Note> {
        self.text.form_of(PATH)?;
        let first = self.design.steps.len();
        let mut at = top;
        while self.text.next() != b')' {
            let word = self.word()?;
            let inst = self.step(at, word)?;
            let inst = &self.design.insts[inst as usize];
            self.design.steps.push(inst.name.id);
            at = inst.of;
        }
        self.text.close()?;
        let path = Rows::new(first, self.design.steps.len());
        want(path.len() > 0)?;
        self.text.form_of(PROPERTY)?;
        let property = self.property()?;
        self.text.close()?;
        Ok(Note { path, property })
    }

    /// The instance of a cell that a step means.
    fn step(&mut self, cell: u32, word: u32) -> Read<u32> {
        let insts = self.design.cells[cell as usize].insts;
        if self.steps.listed.insert(cell) {
            let ids = insts.of(&self.design.insts).iter().map(|inst| (cell, inst.name.id));
            self.steps.insts.extend(ids.zip(insts.from..));
        }
        if let Some(inst) = self.steps.insts.get(&(cell, word)) {
            return Ok(*inst);
        }
        self.only(Scope::Insts(cell), insts, word)
    }
}

/// Whether no word comes twice.
fn differ(words: impl ExactSizeIterator<Item = u32> + Clone) -> bool {
    if words.len() <= FEW {
        return words.clone().enumerate().all(|(before, word)| words.clone().take(before).all(|other| other != word));
    }
    let mut seen = HashSet::with_capacity(words.len());
    words.into_iter().all(|word| seen.insert(word))
}
