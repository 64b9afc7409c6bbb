//! A design as lists of all that its cells have, one cell after another.
use crate::read_words::{Place, Words};

/// Items that stand one after another in a list.
#[derive(Clone, Copy, Default)]
pub struct Rows {
    pub from: u32,
    pub to: u32,
}

impl Rows {
    pub fn new(from: usize, to: usize) -> Rows {
        Rows { from: from as u32, to: to as u32 }
    }

    #[inline]
    pub fn of<T>(self, list: &[T]) -> &[T] {
        &list[self.from as usize..self.to as usize]
    }

    #[inline]
    pub fn len(self) -> usize {
        (self.to - self.from) as usize
    }
}

#[derive(Clone, Copy)]
pub struct Name {
    /// The word that is the identifier.
    pub id: u32,
    pub shown: Option<Place>,
}

/// A value of a property. Texts are kept as they are spelled, without quotes.
#[derive(Clone, Copy)]
pub enum Value {
    Boolean(bool),
    Integer(i64),
    Number(i64),
    Scaled(i64, i32),
    Text(Place),
}

#[derive(Clone, Copy)]
pub struct Property {
    pub key: Name,
    pub value: Value,
    pub owner: Option<Place>,
}

pub struct Port {
    pub name: Name,
    /// The width of an array, or zero.
    pub array: u32,
    /// How many bits the cell's ports before it have.
    pub before: u32,
    pub direction: Option<&'static [u8]>,
    pub designator: Option<Place>,
    pub properties: Rows,
}

impl Port {
    #[inline]
    pub fn width(&self) -> u32 {
        self.array.max(1)
    }
}

pub struct Inst {
    pub name: Name,
    pub of: u32,
    pub designator: Option<Place>,
    pub properties: Rows,
}

/// In place of an instance: the cell itself.
pub const OWN: u32 = u32::MAX;

/// A bit of a port, which is a place in the list of all ports, at an instance, which is a place among those of its cell.
#[derive(Clone, Copy)]
pub struct End {
    pub inst: u32,
    pub port: u32,
    pub bit: u32,
}

pub struct Net {
    pub name: Name,
    pub ends: Rows,
    pub properties: Rows,
}

/// A cell. It stands behind those that it places.
pub struct Cell {
    pub name: Name,
    pub lib: u32,
    /// The cell before it with the same identifier, in any library, counted from one; or zero.
    pub older: u32,
    pub kind: &'static [u8],
    pub properties: Rows,
    pub view: Name,
    pub view_properties: Rows,
    pub interface_properties: Rows,
    pub ports: Rows,
    pub bits: u32,
    pub leaf: bool,
    pub insts: Rows,
    pub nets: Rows,
}

pub struct Lib {
    pub name: Name,
    pub external: bool,
    pub cells: Rows,
}

pub struct Note {
    /// The identifiers of its steps.
    pub path: Rows,
    pub property: Property,
}

pub struct Top {
    pub name: Name,
    pub cell: u32,
    pub properties: Rows,
}

pub struct Design<'a> {
    pub words: Words<'a>,
    pub title: Name,
    pub libs: Vec<Lib>,
    pub cells: Vec<Cell>,
    pub ports: Vec<Port>,
    pub insts: Vec<Inst>,
    pub nets: Vec<Net>,
    pub ends: Vec<End>,
    pub properties: Vec<Property>,
    pub top: Option<Top>,
    pub notes: Vec<Note>,
    pub steps: Vec<u32>,
}
