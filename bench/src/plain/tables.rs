//! The guard's tables.

pub const USERS: usize = 16;
pub const GROUPS: usize = 16;
pub const SUBJECTS: usize = 32;
pub const OBJECTS: usize = 64;

#[derive(Clone, Copy, PartialEq, Eq)]
pub enum Kind {
    Container,
    File,
    Program,
}

impl Kind {
    pub fn from_number(number: u8) -> Option<Kind> {
        match number {
            0 => Some(Kind::Container),
            1 => Some(Kind::File),
            2 => Some(Kind::Program),
            _ => None,
        }
    }
}

/// A right, by its bit in a set of rights.
#[derive(Clone, Copy)]
pub enum Right {
    Read,
    Write,
    Create,
    Delete,
    ChangeRights,
    Execute,
    WriteAttributes,
}

impl Right {
    /// Is this right in the set?
    fn is_in(self, set: u8) -> bool {
        set & (1 << self as u8) != 0
    }
}

#[derive(Clone, Copy)]
pub struct User {
    pub admin: bool,
    pub groups: u16,
    pub allowed: u64,
    pub floor: u64,
    pub top: u64,
}

#[derive(Clone, Copy)]
pub struct Subject {
    pub user: u8,
    pub label: u64,
    pub program: Option<u8>,
}

#[derive(Clone, Copy)]
pub struct Object {
    pub kind: Kind,
    pub parent: u8,
    pub owner: u8,
    pub label: u64,
    pub mixed: bool,
    pub groups: u16,
    pub rights: [u8; USERS],
}

impl Object {
    pub fn is_unmixed_container(&self) -> bool {
        self.kind == Kind::Container && !self.mixed
    }
}

#[derive(Clone)]
pub struct Tables {
    pub users: [Option<User>; USERS],
    pub groups: [Option<u8>; GROUPS],
    pub subjects: [Option<Subject>; SUBJECTS],
    pub objects: [Option<Object>; OBJECTS],
}

/// The numbers in a set, in ascending order.
pub fn members(mut set: u64) -> impl Iterator<Item = u8> {
    std::iter::from_fn(move || {
        if set == 0 {
            return None;
        }
        let first = set.trailing_zeros() as u8;
        set &= set - 1;
        Some(first)
    })
}

impl Tables {
    pub fn blank() -> Tables {
        Tables { users: [None; USERS], groups: [None; GROUPS], subjects: [None; SUBJECTS], objects: [None; OBJECTS] }
    }

    pub fn user(&self, number: u8) -> Option<&User> {
        self.users.get(usize::from(number))?.as_ref()
    }

    pub fn subject(&self, number: u8) -> Option<&Subject> {
        self.subjects.get(usize::from(number))?.as_ref()
    }

    pub fn object(&self, number: u8) -> Option<&Object> {
        self.objects.get(usize::from(number))?.as_ref()
    }

    /// The objects that are there, with their numbers.
    pub fn numbered_objects(&self) -> impl Iterator<Item = (u8, &Object)> {
        (0u8..).zip(&self.objects).filter_map(|(number, slot)| Some((number, slot.as_ref()?)))
    }

    /// Has the user the right on the object?
    pub fn has_right(&self, number: u8, user: &User, object: &Object, right: Right) -> bool {
        object.owner == number
            || user.admin
            || right.is_in(object.rights[usize::from(number)])
            || members(u64::from(user.groups & object.groups)).any(|group| self.groups[usize::from(group)].is_some_and(|role| right.is_in(role)))
    }

    /// The numbers that object `x` lies under, from its parent up to the root. In a circle or past a missing parent there is no root: then
    /// as many as there are slots at most.
    pub fn ancestors(&self, x: u8) -> impl Iterator<Item = u8> + '_ {
        let parent = |x: u8| if x == 0 { None } else { Some(self.object(x)?.parent) };
        std::iter::successors(parent(x), move |&at| parent(at)).take(OBJECTS)
    }

    pub fn lies_under(&self, x: u8, p: u8) -> bool {
        self.ancestors(x).any(|ancestor| ancestor == p)
    }
}
