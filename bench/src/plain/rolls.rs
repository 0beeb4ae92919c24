//! Rolls: the tables as bytes.

use super::reader::{Fault, Fields};
use super::tables::{GROUPS, Kind, OBJECTS, Object, Tables, USERS, User};

const USER: u8 = 1;
const GROUP: u8 = 2;
const OBJECT: u8 = 3;

/// Reads the tables that a roll says. A fault carries the place at which the bad record begins.
pub fn read(bytes: &[u8]) -> Result<Tables, (Fault, usize)> {
    let mut tables = Tables::blank();
    let mut rest = bytes;
    let mut last = (0, 0);
    while !rest.is_empty() {
        let place = bytes.len() - rest.len();
        rest = read_record(&mut tables, rest, &mut last).map_err(|fault| (fault, place))?;
    }
    Ok(tables)
}

/// Reads the record in front into its slot, and gives what is left. `last` are the kind and the number of the record before.
fn read_record<'a>(tables: &mut Tables, bytes: &'a [u8], last: &mut (u8, u8)) -> Result<&'a [u8], Fault> {
    let Some((&[map, kind, number], rest)) = bytes.split_first_chunk() else {
        return Err(Fault::CutShort);
    };
    let (fields, slots) = match kind {
        USER => (5, USERS),
        GROUP => (1, GROUPS),
        OBJECT => (7, OBJECTS),
        _ => return Err(Fault::BadForm),
    };
    if map >> fields != 0 || usize::from(number) >= slots {
        return Err(Fault::BadForm);
    }
    let slot = usize::from(number);
    let mut fields = Fields::new(rest, map);
    match kind {
        USER => tables.users[slot] = Some(read_user(&mut fields).ok_or(Fault::CutShort)?),
        GROUP => tables.groups[slot] = Some(read_role(&mut fields).ok_or(Fault::CutShort)?),
        _ => tables.objects[slot] = Some(read_object(&mut fields).ok_or(Fault::CutShort)?),
    }
    let rest = fields.end().ok_or(Fault::BadForm)?;
    if (kind, number) <= *last {
        return Err(Fault::OutOfOrder);
    }
    *last = (kind, number);
    Ok(rest)
}

fn read_user(fields: &mut Fields) -> Option<User> {
    Some(User { admin: fields.flag(), groups: fields.short()?, allowed: fields.long()?, floor: fields.long()?, top: fields.long()? })
}

fn read_role(fields: &mut Fields) -> Option<u8> {
    let role = fields.byte()?;
    fields.require(role < 128);
    Some(role)
}

fn read_object(fields: &mut Fields) -> Option<Object> {
    let parent = fields.byte()?;
    let kind = Kind::from_number(fields.byte()?);
    fields.require(kind.is_some());
    Some(Object {
        kind: kind.unwrap_or(Kind::Container),
        parent,
        owner: fields.byte()?,
        label: fields.long()?,
        mixed: fields.flag(),
        groups: fields.short()?,
        rights: read_rights(fields)?,
    })
}

fn read_rights(fields: &mut Fields) -> Option<[u8; USERS]> {
    let mut rights = [0; USERS];
    if !fields.flag() {
        return Some(rights);
    }
    let users = u16::from_le_bytes(fields.bytes()?);
    fields.require(users != 0);
    for (user, set) in rights.iter_mut().enumerate() {
        if users >> user & 1 != 0 {
            let [byte] = fields.bytes()?;
            fields.require(byte != 0 && byte < 128);
            *set = byte;
        }
    }
    Some(rights)
}

/// A record that is being written: its fields, and the map of those that are not zero.
struct Record {
    bytes: [u8; 64],
    len: usize,
    bit: u8,
}

impl Record {
    fn new(kind: u8, number: usize) -> Record {
        let mut bytes = [0; 64];
        bytes[1] = kind;
        bytes[2] = number as u8;
        Record { bytes, len: 3, bit: 1 }
    }

    /// Marks the next bit of the map, if it stands.
    fn flag(&mut self, stands: bool) {
        if stands {
            self.bytes[0] |= self.bit;
        }
        self.bit <<= 1;
    }

    fn extend(&mut self, bytes: &[u8]) {
        self.bytes[self.len..self.len + bytes.len()].copy_from_slice(bytes);
        self.len += bytes.len();
    }

    fn field<const N: usize>(&mut self, bytes: [u8; N]) {
        let stands = bytes != [0; N];
        self.flag(stands);
        if stands {
            self.extend(&bytes);
        }
    }

    fn rights(&mut self, rights: &[u8; USERS]) {
        let users = rights.iter().rev().fold(0u16, |users, &set| users << 1 | u16::from(set != 0));
        self.flag(users != 0);
        if users != 0 {
            self.extend(&users.to_le_bytes());
            for &set in rights.iter().filter(|&&set| set != 0) {
                self.extend(&[set]);
            }
        }
    }

    fn as_bytes(&self) -> &[u8] {
        &self.bytes[..self.len]
    }
}

fn user_record(number: usize, user: &User) -> Record {
    let mut record = Record::new(USER, number);
    record.flag(user.admin);
    record.field(user.groups.to_le_bytes());
    record.field(user.allowed.to_le_bytes());
    record.field(user.floor.to_le_bytes());
    record.field(user.top.to_le_bytes());
    record
}

fn group_record(number: usize, role: u8) -> Record {
    let mut record = Record::new(GROUP, number);
    record.field([role]);
    record
}

fn object_record(number: usize, object: &Object) -> Record {
    let mut record = Record::new(OBJECT, number);
    record.field([object.parent]);
    record.field([object.kind as u8]);
    record.field([object.owner]);
    record.field(object.label.to_le_bytes());
    record.flag(object.mixed);
    record.field(object.groups.to_le_bytes());
    record.rights(&object.rights);
    record
}

/// The records of the tables, in order.
fn records(tables: &Tables) -> impl Iterator<Item = Record> {
    let users = tables.users.iter().enumerate().filter_map(|(number, user)| Some(user_record(number, user.as_ref()?)));
    let groups = tables.groups.iter().enumerate().filter_map(|(number, role)| Some(group_record(number, (*role)?)));
    let objects = tables.objects.iter().enumerate().filter_map(|(number, object)| Some(object_record(number, object.as_ref()?)));
    users.chain(groups).chain(objects)
}

/// Writes the tables into the front of a buffer, and gives their length; a buffer that is too short is left alone.
pub fn write(tables: &Tables, buffer: &mut [u8]) -> Option<usize> {
    let mut all = Vec::with_capacity(4096);
    for record in records(tables) {
        all.extend_from_slice(record.as_bytes());
    }
    buffer.get_mut(..all.len())?.copy_from_slice(&all);
    Some(all.len())
}
