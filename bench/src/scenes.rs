//! What is timed: rolls and call streams in which every timed call gets one and the same answer.

use crate::inputs::{CONTAINER, CREATE, DELETE, ENTER, FILE, MOVE, Object, RAISE, READ, Random, Roll, Stream, User, WRITE};
use crate::versions::Label;

/// The numbers of objects that are timed.
pub const SIZES: [u8; 3] = [4, 16, 64];

/// A roll, the calls that come before what is timed, and these calls with those that are timed behind them.
pub struct Scene {
    pub roll: Vec<u8>,
    pub before: Stream,
    pub all: Stream,
    pub answer: u8,
}

/// Labels at one of the two schemes. `low` flows to `middle`, `middle` to `high`, and not back; `floor` flows to all, and `root` holds all.
#[derive(Clone, Copy)]
struct Levels {
    floor: u64,
    top: u64,
    root: u64,
    low: u64,
    middle: u64,
    high: u64,
}

pub fn house(secrecy: u64, secrecy_categories: u64, trust: u64, trust_categories: u64) -> u64 {
    secrecy | secrecy_categories << 16 | trust << 32 | trust_categories << 48
}

fn levels(label: Label) -> Levels {
    match label {
        Label::House => Levels {
            floor: house(0, 0, 2, 255),
            top: house(2, 255, 0, 0),
            root: house(2, 255, 2, 255),
            low: house(1, 1, 1, 3),
            middle: house(1, 3, 1, 1),
            high: house(1, 7, 1, 1),
        },
        Label::Old => Levels { floor: 4, top: 0, root: 4, low: 3, middle: 2, high: 1 },
    }
}

/// Who calls in the scenes of reads and writes.
const BY_OWN_SET: u8 = 1;
const BY_GROUP: u8 = 2;
const NO_RIGHT: u8 = 3;
const NO_RIGHT_IN_GROUPS: u8 = 4;
const BY_ONE_GROUP: u8 = 5;
const NO_RIGHT_IN_ONE: u8 = 6;

/// The timed reads and writes: the call, the user that makes it, whether the label is right for it, and the answer.
pub const ACCESS: [(&str, u8, u8, bool, u8); 14] = [
    ("read, granted by the object's set", READ, BY_OWN_SET, true, 0),
    ("read, granted through a group", READ, BY_ONE_GROUP, true, 0),
    ("read, granted through the last of eight groups", READ, BY_GROUP, true, 0),
    ("read, refused: no right, no group", READ, NO_RIGHT, true, 5),
    ("read, refused: no right in a group", READ, NO_RIGHT_IN_ONE, true, 5),
    ("read, refused: no right in eight groups", READ, NO_RIGHT_IN_GROUPS, true, 5),
    ("read, refused: wrong way", READ, BY_OWN_SET, false, 7),
    ("write, granted by the object's set", WRITE, BY_OWN_SET, true, 0),
    ("write, granted through a group", WRITE, BY_ONE_GROUP, true, 0),
    ("write, granted through the last of eight groups", WRITE, BY_GROUP, true, 0),
    ("write, refused: no right, no group", WRITE, NO_RIGHT, true, 5),
    ("write, refused: no right in a group", WRITE, NO_RIGHT_IN_ONE, true, 5),
    ("write, refused: no right in eight groups", WRITE, NO_RIGHT_IN_GROUPS, true, 5),
    ("write, refused: wrong way", WRITE, BY_OWN_SET, false, 7),
];

/// Users without marks that all have the whole range, user 0 an administrator; group 7 alone gives the rights to read and to write.
fn staff(l: Levels) -> Roll {
    let mut roll = Roll::empty();
    for (number, user) in roll.users.iter_mut().enumerate() {
        let groups = match number as u8 {
            BY_GROUP => 0x00FF,
            NO_RIGHT_IN_GROUPS => 0xFF00,
            BY_ONE_GROUP => 0x0080,
            NO_RIGHT_IN_ONE => 0x0100,
            _ => 0,
        };
        *user = Some(User { admin: number == 0, groups, allowed: 0, floor: l.floor, top: l.top });
    }
    roll.groups = [Some(0b100); 16];
    roll.groups[7] = Some(0b111);
    roll
}

fn container(parent: u8, label: u64) -> Object {
    Object { parent, label, kind: CONTAINER, ..Object::default() }
}

/// Reads or writes of files that all lie in the root, in an order that is no order.
pub fn access(label: Label, objects: u8, row: usize) -> Scene {
    let l = levels(label);
    let (_, call, user, right_way, answer) = ACCESS[row];
    let mut roll = staff(l);
    let mut rights = [0b100; 16];
    rights[usize::from(BY_OWN_SET)] = 0b111;
    roll.objects[0] = Some(container(0, l.root));
    for slot in &mut roll.objects[1..usize::from(objects)] {
        *slot = Some(Object { kind: FILE, label: l.middle, groups: 0xFFFF, rights, ..Object::default() });
    }
    let own = if (call == READ) == right_way { l.high } else { l.low };
    let mut before = Stream::default();
    before.labelled(ENTER, &[user, 1], own);
    let mut all = before.clone();
    let mut random = Random(1);
    for _ in 0..40_000 {
        all.call(call, &[1, 1 + random.byte(objects - 1)]);
    }
    Scene { roll: roll.bytes(), before, all, answer }
}

/// The timed calls that look at the tree, by name, with what makes them.
pub const TREE: [(&str, fn(Label, u8) -> Scene); 9] = [
    ("create and delete, flat", |label, objects| create(label, objects, false)),
    ("create and delete, at the end of a chain", |label, objects| create(label, objects, true)),
    ("create, refused: the root far above won't hold it", create_refused),
    ("move a container with all below it, flat", move_flat),
    ("move half of a chain", move_chain),
    ("raise the root, flat", |label, objects| raise(label, objects, false, false)),
    ("raise the root of a chain", |label, objects| raise(label, objects, true, false)),
    ("raise in the middle of a chain", |label, objects| raise(label, objects, true, true)),
    ("raise a file, flat", raise_file),
];

/// How many calls are timed in a scene of the tree.
const CALLS: usize = 4_000;

/// Containers in a chain, each in the one before it, or all in the root.
fn tree(l: Levels, objects: u8, chain: bool) -> Roll {
    let mut roll = staff(l);
    for number in 0..objects {
        let parent = if chain { number.saturating_sub(1) } else { 0 };
        roll.objects[usize::from(number)] = Some(container(parent, l.root));
    }
    roll
}

/// The administrator enters as subject 1, at the label that flows to all.
fn administrator(l: Levels) -> Stream {
    let mut before = Stream::default();
    before.labelled(ENTER, &[0, 1], l.floor);
    before
}

fn scene(roll: &Roll, before: Stream, answer: u8, mut next: impl FnMut(&mut Stream, usize)) -> Scene {
    let mut all = before.clone();
    for turn in 0..CALLS {
        next(&mut all, turn);
    }
    Scene { roll: roll.bytes(), before, all, answer }
}

/// The last object is made and taken away, in turn.
fn create(label: Label, objects: u8, chain: bool) -> Scene {
    let l = levels(label);
    let last = objects - 1;
    let parent = if chain { last - 1 } else { 0 };
    scene(&tree(l, last, chain), administrator(l), 0, |all, turn| match turn % 2 {
        0 => all.labelled(CREATE, &[1, parent, last, FILE], l.middle),
        _ => all.call(DELETE, &[1, last]),
    })
}

/// A chain of mixed containers below an unmixed root that does not hold the new label.
fn create_refused(label: Label, objects: u8) -> Scene {
    let l = levels(label);
    let (low, high) = match label {
        Label::House => (house(0, 0, 2, 255), house(1, 1, 1, 1)),
        Label::Old => (3, 4),
    };
    let last = objects - 1;
    let mut roll = tree(l, last, true);
    for (number, object) in roll.objects.iter_mut().flatten().enumerate() {
        object.label = low;
        object.mixed = number != 0;
    }
    let mut before = Stream::default();
    before.labelled(ENTER, &[0, 1], l.floor);
    scene(&roll, before, 9, |all, _| all.labelled(CREATE, &[1, last - 1, last, FILE], high))
}

/// A container with all others in it goes from one of two containers to the other.
fn move_flat(label: Label, objects: u8) -> Scene {
    let l = levels(label);
    let mut roll = tree(l, objects, false);
    for number in 3..objects {
        let parent = if number == 3 { 1 } else { 3 };
        roll.objects[usize::from(number)] = Some(container(parent, l.root));
    }
    scene(&roll, administrator(l), 0, |all, turn| all.call(MOVE, &[1, 3, if turn % 2 == 0 { 2 } else { 1 }]))
}

/// The lower half of a chain goes one up, and back down.
fn move_chain(label: Label, objects: u8) -> Scene {
    let l = levels(label);
    let half = objects / 2;
    scene(&tree(l, objects, true), administrator(l), 0, |all, turn| {
        all.call(MOVE, &[1, half, if turn % 2 == 0 { half - 2 } else { half - 1 }]);
    })
}

/// A container gets the label that it has.
fn raise(label: Label, objects: u8, chain: bool, in_the_middle: bool) -> Scene {
    let l = levels(label);
    let object = if in_the_middle { objects / 2 } else { 0 };
    scene(&tree(l, objects, chain), administrator(l), 0, |all, _| all.labelled(RAISE, &[1, object], l.root))
}

/// A file in the root gets the label that it has.
fn raise_file(label: Label, objects: u8) -> Scene {
    let l = levels(label);
    let last = objects - 1;
    let mut roll = tree(l, objects, false);
    roll.objects[usize::from(last)] = Some(Object { kind: FILE, label: l.middle, ..Object::default() });
    scene(&roll, administrator(l), 0, |all, _| all.labelled(RAISE, &[1, last], l.middle))
}

/// A roll with something in every field: all users and groups, and so many objects, each with rights for every user.
pub fn full_roll(label: Label, objects: u8, chain: bool) -> Vec<u8> {
    let l = levels(label);
    let mut roll = staff(l);
    for (number, user) in roll.users.iter_mut().flatten().enumerate() {
        *user = User { admin: number % 2 == 0, groups: 0xFFFF, allowed: 1 << (objects - 1), ..*user };
    }
    for number in 0..objects {
        let parent = if chain { number.saturating_sub(1) } else { 0 };
        roll.objects[usize::from(number)] = Some(Object { owner: number % 16, groups: 0xFFFF, rights: [0x7F; 16], ..container(parent, l.root) });
    }
    if let Some(last) = &mut roll.objects[usize::from(objects) - 1] {
        last.kind = crate::inputs::PROGRAM;
    }
    roll.bytes()
}
