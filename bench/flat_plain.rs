//! Reads an EDIF file of the profile, with all its checks, and writes its flattening or its pin table, as `netdb` does:
//!
//!     flat_plain flat FILE [limit N]
//!     flat_plain csv FILE
//!
//! With a fault in the file it prints where and ends with 6; with no top it ends with 9, with no such file with 3, with one of
//! more than 128 mebibytes with 8.
use read_design::*;
use read_output::Output;
use std::collections::HashMap;
use std::io;
use std::num::NonZeroU64;
use std::process::ExitCode;

mod read_contents;
#[allow(dead_code)]
mod read_design;
mod read_file;
mod read_forms;
mod read_output;
mod read_spelling;
mod read_text;
mod read_words;

/// No net.
const NONE: u32 = u32::MAX;

/// The net at each bit of the instances of a cell, or at the bits that are joined, in order, where most are not.
enum Joined {
    Each(Vec<u32>),
    Some(Vec<(u64, u32)>),
}

/// A cell with what its nets join. A net's first is the first one of the cell with which it is connected, here or below.
struct Joins<'d> {
    cell: &'d Cell,
    insts: &'d [Inst],
    nets: &'d [Net],
    /// For each instance how many bits those before it have.
    before: Vec<u64>,
    joined: Joined,
    /// The bits of the cell itself that are joined, each with the first of its net.
    own: Vec<(u32, u32)>,
    /// The same for those bits whose first has several of them, those of a first together, with the first in front.
    several: Vec<(u32, u32)>,
    /// The nets that are not their own first, each with that.
    later: Vec<(u32, u32)>,
}

impl Joins<'_> {
    /// The net at a bit of an instance, or none.
    #[inline]
    fn at(&self, inst: usize, bit: u32) -> u32 {
        let number = self.before[inst] + u64::from(bit);
        match &self.joined {
            Joined::Each(nets) => nets[number as usize],
            Joined::Some(bits) => bits.binary_search_by_key(&number, |(bit, _)| *bit).map_or(NONE, |place| bits[place].1),
        }
    }
}

/// The cells at and below the top with what their nets join.
type All<'d> = Vec<Option<Box<Joins<'d>>>>;

fn find(labels: &mut [u32], mut at: u32) -> u32 {
    while labels[at as usize] != at {
        labels[at as usize] = labels[labels[at as usize] as usize];
        at = labels[at as usize];
    }
    at
}

/// What the nets of a cell join, where that is known of the cells that it places.
fn joins<'d>(design: &'d Design, cell: &'d Cell, all: &All) -> Joins<'d> {
    let (insts, nets) = (cell.insts.of(&design.insts), cell.nets.of(&design.nets));
    let mut before = Vec::with_capacity(insts.len());
    let mut count = 0;
    for inst in insts {
        before.push(count);
        count += u64::from(design.cells[inst.of as usize].bits);
    }
    let ends: usize = nets.iter().map(|net| net.ends.len()).sum();
    let mut own = Vec::new();
    let joined = if count / 16 <= ends as u64 {
        let mut each = vec![NONE; count as usize];
        own_and_others(design, nets, &before, &mut own, |bit, net| each[bit as usize] = net);
        Joined::Each(each)
    } else {
        let mut some = Vec::with_capacity(ends);
        own_and_others(design, nets, &before, &mut own, |bit, net| some.push((bit, net)));
        some.sort_unstable();
        Joined::Some(some)
    };
    let mut joins = Joins { cell, insts, nets, before, joined, own, several: Vec::new(), later: Vec::new() };
    find_firsts(&mut joins, all);
    joins
}

/// Goes over the bits that nets join: lists those of the cell itself with their nets, and hands out those of its instances.
fn own_and_others(design: &Design, nets: &[Net], before: &[u64], own: &mut Vec<(u32, u32)>, mut other: impl FnMut(u64, u32)) {
    for (net, number) in nets.iter().zip(0..) {
        for end in net.ends.of(&design.ends) {
            let bit = design.ports[end.port as usize].before + end.bit;
            match end.inst {
                OWN => own.push((bit, number)),
                inst => other(before[inst as usize] + u64::from(bit), number),
            }
        }
    }
}

/// Connects nets that are connected below, and tells which bits of the cell are connected by that or by one net.
fn find_firsts(joins: &mut Joins, all: &All) {
    let mut labels = Vec::new();
    for (place, inst) in joins.insts.iter().enumerate() {
        let several = all[inst.of as usize].as_ref().map_or(&[][..], |below| &below.several);
        if !several.is_empty() && labels.is_empty() {
            labels = (0..joins.nets.len() as u32).collect();
        }
        for connected in several.chunk_by(|a, b| a.0 == b.0) {
            let mut nets = connected.iter().map(|(_, bit)| joins.at(place, *bit)).filter(|net| *net != NONE);
            let Some(one) = nets.next() else {
                continue;
            };
            for other in nets {
                let (a, b) = (find(&mut labels, one), find(&mut labels, other));
                labels[a.max(b) as usize] = a.min(b);
            }
        }
    }
    for net in 0..labels.len() as u32 {
        let first = find(&mut labels, net);
        if first != net {
            joins.later.push((net, first));
        }
    }
    for (_, net) in &mut joins.own {
        *net = labels.get(*net as usize).map_or(*net, |first| *first);
    }
    let mut bits: Vec<(u32, u32)> = joins.own.iter().map(|(bit, first)| (*first, *bit)).collect();
    bits.sort_unstable();
    joins.several = bits.chunk_by(|a, b| a.0 == b.0).filter(|connected| connected.len() > 1).flatten().copied().collect();
}

/// A cell of a file stands behind those that it places.
fn all_joins<'d>(design: &'d Design, top: u32) -> All<'d> {
    let mut below = vec![false; top as usize + 1];
    below[top as usize] = true;
    for cell in (0..=top as usize).rev().filter(|cell| !design.cells[*cell].leaf) {
        if below[cell] {
            design.cells[cell].insts.of(&design.insts).iter().for_each(|inst| below[inst.of as usize] = true);
        }
    }
    let mut all = All::with_capacity(below.len());
    for (cell, is_below) in design.cells.iter().zip(below) {
        all.push((is_below && !cell.leaf).then(|| Box::new(joins(design, cell, &all))));
    }
    all
}

/// A net of an occurrence: the length of the path's text, which is a front of that of each place where the net is known, and its name.
#[derive(Clone, Copy)]
struct Known {
    length: u32,
    id: u32,
}

/// An occurrence on the way to the one that is listed.
struct Frame<'a, 'd> {
    joins: &'a Joins<'d>,
    next: usize,
    length: usize,
    /// Where the representatives of its nets begin.
    known: usize,
}

enum Stop {
    AtLimit,
    Broken,
}

struct Walk<'a, 'd> {
    design: &'d Design<'d>,
    all: &'a All<'d>,
    notes: HashMap<Vec<u8>, Vec<&'d Property>>,
    table: bool,
    left: u64,
    path: Vec<u8>,
    frames: Vec<Frame<'a, 'd>>,
    known: Vec<Known>,
    /// What the lines of one occurrence begin with.
    start: Vec<u8>,
    out: Output,
}

impl<'d> Walk<'_, 'd> {
    /// Begins an item, where one more may be listed.
    #[inline]
    fn item(&mut self) -> Result<(), Stop> {
        self.left = self.left.checked_sub(1).ok_or(Stop::AtLimit)?;
        Ok(())
    }

    #[inline]
    fn place(&mut self, length: usize) {
        self.out.put(if length == 0 { b"/" } else { &self.path[..length] });
    }

    #[inline]
    fn word(&mut self, word: u32) {
        self.out.put_word(&self.design.words, word);
    }

    fn begin_lines(&mut self, word: &[u8], between: u8) {
        self.start.clear();
        self.start.extend_from_slice(word);
        self.start.extend_from_slice(if self.path.is_empty() { b"/" } else { &self.path });
        self.start.push(between);
    }

    fn property(&mut self, property: &Property) {
        self.out.put(b" ");
        self.word(property.key.id);
        self.out.put(b"=");
        match property.value {
            Value::Boolean(truth) => self.out.put(if truth { b"true" } else { b"false" }),
            Value::Integer(number) => self.out.put_integer(number),
            Value::Number(number) => {
                self.out.put(b"n");
                self.out.put_integer(number);
            }
            Value::Scaled(mantissa, exponent) => {
                self.out.put(b"n");
                self.out.put_integer(mantissa);
                self.out.put(b"e");
                self.out.put_integer(i64::from(exponent));
            }
            Value::Text(text) => {
                self.out.put(b"\"");
                self.out.put(self.design.words.bytes(text));
                self.out.put(b"\"");
            }
        }
    }

    /// The properties of an instance or of the top, with those of the notes at this place.
    fn properties(&mut self, properties: &'d [Property]) {
        let noted = if self.notes.is_empty() { None } else { self.notes.get(&self.path).cloned() };
        let noted = noted.unwrap_or_default();
        for property in properties {
            let note = noted.iter().find(|note| note.key.id == property.key.id);
            self.property(note.copied().unwrap_or(property));
        }
        for note in noted {
            if properties.iter().all(|property| property.key.id != note.key.id) {
                self.property(note);
            }
        }
    }

    fn entry(&mut self, cell: &Cell, properties: &'d [Property]) -> Result<(), Stop> {
        self.item()?;
        self.out.put(b"inst ");
        self.place(self.path.len());
        self.out.put(b" ");
        self.word(self.design.libs[cell.lib as usize].name.id);
        self.out.put(b" ");
        self.word(cell.name.id);
        self.properties(properties);
        self.out.put(b"\n");
        Ok(())
    }

    /// A net by its representative, at the end of a line.
    #[inline]
    fn representative(&mut self, known: Known, between: &[u8]) {
        self.place(known.length as usize);
        self.out.put(between);
        self.word(known.id);
        self.out.put(b"\n");
    }

    fn nets(&mut self, nets: &[Net], first: usize) -> Result<(), Stop> {
        self.begin_lines(b"net ", b' ');
        for (number, net) in nets.iter().enumerate() {
            self.item()?;
            self.out.put(&self.start);
            self.word(net.name.id);
            self.out.put(b" ");
            self.representative(self.known[first + number], b" ");
        }
        Ok(())
    }

    /// The pins of a cell, by the net of the last frame, or none, at each of its bits.
    fn pins(&mut self, cell: &Cell, net: impl Fn(u32) -> u32) -> Result<(), Stop> {
        let (word, between, none): (&[u8], &[u8; 1], &[u8]) = if self.table { (b"", b",", b",\n") } else { (b"pin ", b" ", b"-\n") };
        let known = self.frames.last().map_or(0, |frame| frame.known);
        self.begin_lines(word, between[0]);
        for port in cell.ports.of(&self.design.ports) {
            for bit in 0..port.width() {
                self.item()?;
                self.out.put(&self.start);
                self.word(port.name.id);
                self.out.put(between);
                self.out.put_number(u64::from(bit));
                self.out.put(between);
                match net(port.before + bit) {
                    NONE => self.out.put(none),
                    net => self.representative(self.known[known + net as usize], between),
                }
            }
        }
        Ok(())
    }

    /// Puts an occurrence behind the frames: its nets have the representatives of those around it, or else are their own.
    fn open(&mut self, of: u32) {
        let Some(joins) = self.all[of as usize].as_deref() else {
            return;
        };
        let (first, length) = (self.known.len(), self.path.len() as u32);
        self.known.extend(joins.nets.iter().map(|net| Known { length, id: net.name.id }));
        if let Some(frame) = self.frames.last() {
            for (bit, net) in &joins.own {
                let outer = frame.joins.at(frame.next - 1, *bit);
                if outer != NONE {
                    self.known[first + *net as usize] = self.known[frame.known + outer as usize];
                }
            }
        }
        for (net, other) in &joins.later {
            self.known[first + *net as usize] = self.known[first + *other as usize];
        }
        self.frames.push(Frame { joins, next: 0, length: self.path.len(), known: first });
    }

    /// An occurrence, without those below it.
    fn occurrence(&mut self, of: u32, properties: Rows) -> Result<(), Stop> {
        let cell = &self.design.cells[of as usize];
        if !self.out.is_whole() {
            return Err(Stop::Broken);
        }
        if !self.table {
            self.entry(cell, properties.of(&self.design.properties))?;
        }
        if cell.leaf {
            return match self.frames.last() {
                None => self.pins(cell, |_| NONE),
                Some(Frame { joins, next, .. }) => {
                    let (joins, inst) = (*joins, next - 1);
                    self.pins(cell, |bit| joins.at(inst, bit))
                }
            };
        }
        self.open(of);
        if !self.table {
            let nets = cell.nets.of(&self.design.nets);
            self.nets(nets, self.known.len() - nets.len())?;
        }
        Ok(())
    }

    fn whole(&mut self, top: &Top) -> Result<(), Stop> {
        self.occurrence(top.cell, top.properties)?;
        if let Some(frame) = self.frames.last() {
            let mut nets = vec![NONE; frame.joins.cell.bits as usize];
            frame.joins.own.iter().for_each(|(bit, net)| nets[*bit as usize] = *net);
            self.pins(frame.joins.cell, |bit| nets[bit as usize])?;
        }
        while let Some(frame) = self.frames.last_mut() {
            self.path.truncate(frame.length);
            let Some(inst) = frame.joins.insts.get(frame.next) else {
                self.known.truncate(frame.known);
                self.frames.pop();
                continue;
            };
            frame.next += 1;
            self.path.push(b'/');
            self.path.extend_from_slice(self.design.words.word(inst.name.id));
            self.occurrence(inst.of, inst.properties)?;
        }
        Ok(())
    }
}

fn notes<'d>(design: &'d Design) -> HashMap<Vec<u8>, Vec<&'d Property>> {
    let mut notes: HashMap<Vec<u8>, Vec<&Property>> = HashMap::new();
    for note in &design.notes {
        let steps = note.path.of(&design.steps).iter();
        let path = steps.flat_map(|step| [b"/", design.words.word(*step)]).flatten().copied().collect();
        notes.entry(path).or_default().push(&note.property);
    }
    notes
}

/// Writes the lines of a flattening up to a limit, or a pin table.
fn write<'d>(design: &'d Design<'d>, top: &'d Top, table: bool, limit: u64) -> io::Result<()> {
    let (all, notes, out) = (all_joins(design, top.cell), notes(design), Output::new()?);
    let (path, frames, known, start) = (Vec::new(), Vec::new(), Vec::new(), Vec::new());
    let mut walk = Walk { design, all: &all, notes, table, left: limit, path, frames, known, start, out };
    if table {
        walk.out.put(b"path,port,bit,net_path,net\n");
    }
    let last: &[u8] = match walk.whole(top) {
        Ok(()) if !table => b"end\n",
        Err(Stop::AtLimit) => b"more\n",
        _ => b"",
    };
    walk.out.put(last);
    walk.out.finish()
}

fn run(table: bool, name: &str, limit: u64) -> u8 {
    let bytes = match read_file::bytes_of(name) {
        Ok(bytes) => bytes,
        Err(status) => return status,
    };
    let design = match read_forms::read(&bytes) {
        Ok(design) => design,
        Err(place) => {
            eprintln!("{name}: fault at {place}");
            return 6;
        }
    };
    let Some(top) = &design.top else {
        return 9;
    };
    match write(&design, top, table, limit) {
        Ok(()) => 0,
        Err(_) => 5,
    }
}

fn main() -> ExitCode {
    let words: Vec<String> = std::env::args().collect();
    let words: Vec<&str> = words.iter().map(String::as_str).collect();
    let status = match words[1..] {
        ["flat", name] => run(false, name, u64::MAX),
        ["flat", name, "limit", limit] => limit.parse().map_or(2, |limit: NonZeroU64| run(false, name, limit.get())),
        ["csv", name] => run(true, name, u64::MAX),
        _ => 2,
    };
    ExitCode::from(status)
}
