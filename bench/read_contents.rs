//! The contents of a cell: its instances, and the nets that join bits of ports.
use crate::read_design::*;
use crate::read_forms::*;
use crate::read_spelling::digits;
use crate::read_text::*;
use std::collections::HashSet;

const MOST_INSTS: usize = 1_048_576;
const MOST_NETS: usize = 1_048_576;
const MOST_ENDS: usize = 4_194_304;

/// What names the bits of an end, by words; the whole port where no member is named.
#[derive(Clone, Copy)]
struct Reference {
    inst: Option<u32>,
    port: u32,
    member: Option<i64>,
}

/// An end whose instance was not read yet when its net was: the first net of the row, the nets in the row, the end's place in each.
struct Later {
    net: usize,
    row: u32,
    end: usize,
    reference: Reference,
}

/// The ports of the cell or of one of its instances, and how many bits those before it have.
#[derive(Clone, Copy, Default)]
struct Placed {
    ports: Rows,
    before: u64,
}

/// What is known of the contents that is read. The lists of one contents serve the next.
#[derive(Default)]
pub struct Inside {
    own: Placed,
    lib: u32,
    /// Where its instances and nets begin among those of the design.
    insts: usize,
    nets: usize,
    placed: Vec<Placed>,
    /// The number of the first bit of the next instance: those of the cell itself and of all instances are numbered one after another.
    bits: u64,
    /// The bits that were joined.
    joined: Vec<u64>,
    later: Vec<Later>,
    ends: usize,
    seen: Vec<u64>,
}

impl Reader<'_> {
    pub fn contents(&mut self, cell: &mut Cell) -> Read<()> {
        cell.leaf = false;
        self.begin(cell);
        while let Some(key) = self.text.form()? {
            match key {
                NET => self.net()?,
                INSTANCE => self.instance()?,
                COMMENT | USER_DATA => self.text.skip()?,
                _ => return Err(Fault),
            }
        }
        cell.insts = Rows::new(self.inside.insts, self.design.insts.len());
        cell.nets = Rows::new(self.inside.nets, self.design.nets.len());
        self.join_later(cell.insts)?;
        want(self.inside.joins_once())
    }

    fn begin(&mut self, cell: &Cell) {
        let inside = &mut self.inside;
        inside.own = Placed { ports: cell.ports, before: 0 };
        inside.lib = cell.lib;
        inside.insts = self.design.insts.len();
        inside.nets = self.design.nets.len();
        inside.placed.clear();
        inside.bits = u64::from(cell.bits);
        inside.joined.clear();
        inside.later.clear();
        inside.ends = 0;
    }

    fn instance(&mut self) -> Read<()> {
        let count = self.design.insts.len();
        want(count - self.inside.insts < MOST_INSTS)?;
        let name = self.name()?;
        self.text.form_of(VIEW_REF)?;
        let view = self.word()?;
        self.text.form_of(CELL_REF)?;
        let of = self.cell_ref(Some(self.inside.lib))?;
        let cell = &self.design.cells[of as usize];
        want(self.design.words.equal_in_any_case(cell.view.id, view))?;
        self.inside.placed.push(Placed { ports: cell.ports, before: self.inside.bits });
        self.inside.bits += u64::from(cell.bits);
        self.text.close()?;
        let mut designator = None;
        let first = self.design.properties.len();
        while let Some(key) = self.text.form()? {
            match key {
                PROPERTY => self.add_property()?,
                DESIGNATOR => self.once(&mut designator)?,
                COMMENT | USER_DATA => self.text.skip()?,
                _ => return Err(Fault),
            }
        }
        let word = self.design.words.at(name.id);
        want(word.inst as usize <= self.inside.insts)?;
        word.inst = count as u32 + 1;
        let properties = self.properties_from(first)?;
        self.design.insts.push(Inst { name, of, designator, properties });
        Ok(())
    }

    fn net(&mut self) -> Read<()> {
        let (name, array) = self.bus_name()?;
        let row = array.max(1);
        want(self.design.nets.len() - self.inside.nets + row as usize <= MOST_NETS)?;
        let first = self.design.ends.len();
        self.joined(row)?;
        let ends = Rows::new(first, self.design.ends.len());
        let from = self.design.properties.len();
        while let Some(key) = self.text.form()? {
            match key {
                PROPERTY => self.add_property()?,
                COMMENT | USER_DATA => self.text.skip()?,
                _ => return Err(Fault),
            }
        }
        let properties = self.properties_from(from)?;
        if array == 0 {
            self.add_net(Net { name, ends, properties })
        } else {
            self.add_row(row, Net { name, ends, properties })
        }
    }

    #[inline]
    fn add_net(&mut self, net: Net) -> Read<()> {
        let word = self.design.words.at(net.name.id);
        want(word.net as usize <= self.inside.nets)?;
        self.design.nets.push(net);
        word.net = self.design.nets.len() as u32;
        Ok(())
    }

    /// The nets of an array, each with the name and the bits of its number.
    fn add_row(&mut self, row: u32, net: Net) -> Read<()> {
        for number in 0..row {
            let name = self.member(net.name, number)?;
            let mut ends = net.ends;
            if number > 0 {
                let first = self.design.ends.len();
                self.design.ends.extend_from_within(net.ends.from as usize..net.ends.to as usize);
                self.design.ends[first..].iter_mut().for_each(|end| end.bit += number);
                ends = Rows::new(first, self.design.ends.len());
            }
            self.add_net(Net { name, ends, properties: net.properties })?;
        }
        Ok(())
    }

    /// The name of the net of a number in the row of an array with this name.
    fn member(&mut self, array: Name, number: u32) -> Read<Name> {
        let mut buffer = [0; 20];
        let digits = digits(u64::from(number), &mut buffer);
        let words = &mut self.design.words;
        let text = array.shown.map_or(words.word(array.id), |shown| words.bytes(shown)).to_vec();
        let id = [words.word(array.id), b"_", digits, b"_"].concat();
        Ok(Name { id: words.number_made(&id)?, shown: Some(words.keep(&[&text, b"[", digits, b"]"])?) })
    }

    /// What the first net of a row joins.
    fn joined(&mut self, row: u32) -> Read<()> {
        self.text.form_of(JOINED)?;
        let (net, first) = (self.design.nets.len(), self.design.ends.len());
        while let Some(key) = self.text.form()? {
            want(key == PORT_REF)?;
            self.inside.ends += row as usize;
            want(self.inside.ends <= MOST_ENDS)?;
            let reference = self.reference()?;
            let mut inst = OWN;
            if let Some(word) = reference.inst {
                inst = self.design.words.at(word).inst.wrapping_sub(self.inside.insts as u32 + 1);
                if inst as usize >= self.inside.placed.len() {
                    let end = self.design.ends.len() - first;
                    self.inside.later.push(Later { net, row, end, reference });
                    self.design.ends.push(End { inst: OWN, port: 0, bit: 0 });
                    continue;
                }
            }
            let end = self.end(inst, &reference, row)?;
            self.design.ends.push(end);
        }
        Ok(())
    }

    #[inline]
    fn reference(&mut self) -> Read<Reference> {
        let (port, mut member, mut inst);
        (member, inst) = (None, None);
        if self.text.next() == b'(' {
            self.text.form_of(MEMBER)?;
            port = self.word()?;
            member = Some(self.text.integer()?);
            self.text.close()?;
        } else {
            port = self.word()?;
        }
        if let Some(key) = self.text.form()? {
            want(key == INSTANCE_REF)?;
            inst = Some(self.word()?);
            self.text.close()?;
            self.text.close()?;
        }
        Ok(Reference { inst, port, member })
    }

    /// The bits of a port as an end of the first net of a row: they are as many as there are nets in it.
    #[inline]
    fn end(&mut self, inst: u32, reference: &Reference, row: u32) -> Read<End> {
        let Placed { ports, before } = match inst {
            OWN => self.inside.own,
            inst => self.inside.placed[inst as usize],
        };
        let place = self.port_meant(ports, reference.port)?;
        let port = &self.design.ports[place as usize];
        let width = port.width();
        let (bit, wide) = match reference.member {
            None => (0, width),
            Some(member) => (u32::try_from(member).ok().filter(|bit| *bit < width).ok_or(Fault)?, 1),
        };
        want(wide == row)?;
        let first = before + u64::from(port.before + bit);
        self.inside.joined.extend(first..first + u64::from(row));
        Ok(End { inst, port: place, bit })
    }

    /// The ends that waited for the instances that stand behind their nets, or that mean one by another letter case.
    fn join_later(&mut self, insts: Rows) -> Read<()> {
        let later = std::mem::take(&mut self.inside.later);
        for Later { net, row, end, reference } in &later {
            let word = reference.inst.ok_or(Fault)?;
            let mut inst = self.design.words.at(word).inst.wrapping_sub(insts.from + 1);
            if inst as usize >= insts.len() {
                let scope = Scope::Insts(self.design.cells.len() as u32);
                inst = self.only(scope, insts, word)? - insts.from;
            }
            let found = self.end(inst, reference, *row)?;
            for number in 0..*row {
                let ends = self.design.nets[net + number as usize].ends;
                self.design.ends[ends.from as usize + end] = End { bit: found.bit + number, ..found };
            }
        }
        self.inside.later = later;
        Ok(())
    }
}

impl Inside {
    /// No bit is joined twice: there is one of a list for each bit, or a set of them where most of the bits are not joined.
    fn joins_once(&mut self) -> bool {
        if self.bits / 256 > self.joined.len() as u64 {
            let mut seen = HashSet::with_capacity(self.joined.len());
            return self.joined.iter().all(|bit| seen.insert(*bit));
        }
        self.seen.clear();
        self.seen.resize(self.bits as usize / 64 + 1, 0);
        for bit in &self.joined {
            let (word, mark) = (&mut self.seen[*bit as usize / 64], 1 << (bit % 64));
            if *word & mark != 0 {
                return false;
            }
            *word |= mark;
        }
        true
    }
}
