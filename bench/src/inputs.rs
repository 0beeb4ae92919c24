//! Rolls and call streams, written as docs/ROLL.md and docs/RUN.md say.

/// A generator of numbers that are the same in every run (splitmix64).
pub struct Random(pub u64);

impl Random {
    pub fn next(&mut self) -> u64 {
        self.0 = self.0.wrapping_add(0x9E37_79B9_7F4A_7C15);
        let mut z = self.0;
        z = (z ^ (z >> 30)).wrapping_mul(0xBF58_476D_1CE4_E5B9);
        z = (z ^ (z >> 27)).wrapping_mul(0x94D0_49BB_1331_11EB);
        z ^ (z >> 31)
    }

    pub fn below(&mut self, end: u64) -> u64 {
        self.next() % end
    }

    pub fn byte(&mut self, end: u8) -> u8 {
        self.below(u64::from(end)) as u8
    }

    pub fn percent(&mut self, chance: u64) -> bool {
        self.below(100) < chance
    }
}

#[derive(Clone, Copy, Default)]
pub struct User {
    pub admin: bool,
    pub groups: u16,
    pub allowed: u64,
    pub floor: u64,
    pub top: u64,
}

#[derive(Clone, Copy, Default)]
pub struct Object {
    pub parent: u8,
    pub kind: u8,
    pub owner: u8,
    pub label: u64,
    pub mixed: bool,
    pub groups: u16,
    pub rights: [u8; 16],
}

pub const CONTAINER: u8 = 0;
pub const FILE: u8 = 1;
pub const PROGRAM: u8 = 2;

#[derive(Clone)]
pub struct Roll {
    pub users: [Option<User>; 16],
    pub groups: [Option<u8>; 16],
    pub objects: [Option<Object>; 64],
}

/// Writes an entry: the map of the fields that are not zero, its head, and those fields. A flag is a field of no bytes.
fn entry(out: &mut Vec<u8>, head: &[u8], fields: &[(bool, &[u8])]) {
    let stands = |field: &(bool, &[u8])| field.0 || field.1.iter().any(|&byte| byte != 0);
    let map = fields.iter().enumerate().map(|(bit, field)| u8::from(stands(field)) << bit).sum();
    out.push(map);
    out.extend_from_slice(head);
    for field in fields.iter().filter(|field| stands(field)) {
        out.extend_from_slice(field.1);
    }
}

fn rights_field(rights: &[u8; 16]) -> Vec<u8> {
    let map: u16 = rights.iter().enumerate().map(|(user, &set)| u16::from(set != 0) << user).sum();
    let sets = rights.iter().copied().filter(|&set| set != 0);
    map.to_le_bytes().into_iter().chain(sets).collect()
}

impl Roll {
    pub fn empty() -> Roll {
        Roll { users: [None; 16], groups: [None; 16], objects: [None; 64] }
    }

    pub fn bytes(&self) -> Vec<u8> {
        let mut out = Vec::new();
        for (number, user) in self.users.iter().enumerate().filter_map(|(n, user)| Some((n, user.as_ref()?))) {
            let (groups, allowed) = (user.groups.to_le_bytes(), user.allowed.to_le_bytes());
            let (floor, top) = (user.floor.to_le_bytes(), user.top.to_le_bytes());
            entry(&mut out, &[1, number as u8], &[(user.admin, &[]), (false, &groups), (false, &allowed), (false, &floor), (false, &top)]);
        }
        for (number, role) in self.groups.iter().enumerate().filter_map(|(n, role)| Some((n, (*role)?))) {
            entry(&mut out, &[2, number as u8], &[(false, &[role])]);
        }
        for (number, o) in self.objects.iter().enumerate().filter_map(|(n, object)| Some((n, object.as_ref()?))) {
            let (label, groups, rights) = (o.label.to_le_bytes(), o.groups.to_le_bytes(), rights_field(&o.rights));
            let small: [&[u8]; 3] = [&[o.parent], &[o.kind], &[o.owner]];
            let fields = [
                (false, small[0]),
                (false, small[1]),
                (false, small[2]),
                (false, &label[..]),
                (o.mixed, &[][..]),
                (false, &groups[..]),
                (false, &rights[..]),
            ];
            entry(&mut out, &[3, number as u8], &fields);
        }
        out
    }
}

/// The calls by number, and whether a label stands behind their other arguments.
pub const ENTER: u8 = 1;
pub const LAUNCH: u8 = 2;
pub const READ: u8 = 4;
pub const WRITE: u8 = 5;
pub const CREATE: u8 = 6;
pub const DELETE: u8 = 7;
pub const MOVE: u8 = 8;
pub const RAISE: u8 = 9;

/// A call stream that is being written.
#[derive(Clone, Default)]
pub struct Stream {
    pub bytes: Vec<u8>,
    pub calls: usize,
}

impl Stream {
    pub fn call(&mut self, number: u8, arguments: &[u8]) {
        let fields: Vec<(bool, &[u8])> = arguments.chunks(1).map(|argument| (false, argument)).collect();
        entry(&mut self.bytes, &[number], &fields);
        self.calls += 1;
    }

    pub fn labelled(&mut self, number: u8, arguments: &[u8], label: u64) {
        let label = label.to_le_bytes();
        let mut fields: Vec<(bool, &[u8])> = arguments.chunks(1).map(|argument| (false, argument)).collect();
        fields.push((false, &label));
        entry(&mut self.bytes, &[number], &fields);
        self.calls += 1;
    }
}
