//! What rolls and call streams have in common: a map, and then only those fields whose bit stands in it.

/// Reads the fields of one entry from the front of what is left. `None` where the bytes end.
pub struct Fields<'a> {
    rest: &'a [u8],
    map: u8,
    in_form: bool,
}

impl<'a> Fields<'a> {
    pub fn new(rest: &'a [u8], map: u8) -> Fields<'a> {
        Fields { rest, map, in_form: true }
    }

    /// Does the next bit of the map stand?
    pub fn flag(&mut self) -> bool {
        let stands = self.map & 1 != 0;
        self.map >>= 1;
        stands
    }

    /// Asks something of the form of the fields that were read.
    pub fn require(&mut self, holds: bool) {
        self.in_form &= holds;
    }

    pub fn bytes<const N: usize>(&mut self) -> Option<[u8; N]> {
        let (&bytes, rest) = self.rest.split_first_chunk::<N>()?;
        self.rest = rest;
        Some(bytes)
    }

    /// A field of so many bytes: zero if it is absent, and not in form if it is there and zero.
    fn field<const N: usize>(&mut self) -> Option<[u8; N]> {
        if !self.flag() {
            return Some([0; N]);
        }
        let bytes = self.bytes()?;
        self.require(bytes != [0; N]);
        Some(bytes)
    }

    pub fn byte(&mut self) -> Option<u8> {
        self.field().map(u8::from_le_bytes)
    }

    pub fn short(&mut self) -> Option<u16> {
        self.field().map(u16::from_le_bytes)
    }

    pub fn long(&mut self) -> Option<u64> {
        self.field().map(u64::from_le_bytes)
    }

    /// What is left behind the fields, if they were in form.
    pub fn end(self) -> Option<&'a [u8]> {
        self.in_form.then_some(self.rest)
    }
}

/// What is wrong with an entry that cannot be read.
#[derive(Clone, Copy)]
pub enum Fault {
    CutShort = 11,
    BadForm = 12,
    OutOfOrder = 13,
}
