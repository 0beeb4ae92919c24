//! Random rolls and call streams, most of them small: both versions must answer, end and save alike.

use crate::inputs::{CONTAINER, ENTER, LAUNCH, Object, PROGRAM, Random, Roll, Stream, User};
use crate::scenes::house;
use crate::versions::{Label, same_resave, same_run};

/// A label that a container with the label `p` holds, most times.
fn held_label(random: &mut Random, label: Label, p: u64) -> u64 {
    if random.percent(6) {
        return any_label(random, label);
    }
    match label {
        Label::House => {
            let part = |at: u32| p >> at & 0xFFFF;
            house(random.below(part(0) + 1), part(16) & random.next(), random.below(part(32) + 1), part(48) & random.next())
        }
        Label::Old => random.below(p.min(4) + 1),
    }
}

/// Any label, and now and then a number that is none.
fn any_label(random: &mut Random, label: Label) -> u64 {
    if random.percent(5) {
        return random.next();
    }
    match label {
        Label::House => house(random.below(3), random.below(4), random.below(3), random.below(4)),
        Label::Old => random.below(5),
    }
}

fn random_user(random: &mut Random, label: Label, groups: u16) -> User {
    let (floor, top) = match label {
        Label::House => (house(0, 0, 2, 255), house(2, 255, 0, 0)),
        Label::Old => (4, 0),
    };
    User {
        admin: random.percent(20),
        groups: random.next() as u16 & groups,
        allowed: 0,
        floor: if random.percent(15) { any_label(random, label) } else { floor },
        top: if random.percent(15) { any_label(random, label) } else { top },
    }
}

/// One of the numbers of those entries that are there.
fn one_there<T>(random: &mut Random, slots: &[Option<T>]) -> usize {
    let there: Vec<usize> = slots.iter().enumerate().filter(|slot| slot.1.is_some()).map(|slot| slot.0).collect();
    there[random.below(there.len() as u64) as usize]
}

fn random_object(random: &mut Random, label: Label, roll: &Roll, parent: u8, groups: u16) -> Object {
    let above = roll.objects[usize::from(parent)].map_or(0, |object| object.label);
    let kind = if random.percent(50) { CONTAINER } else { 1 + random.byte(2) };
    let mut rights = [0; 16];
    for _ in 0..random.below(4) {
        rights[one_there(random, &roll.users)] = random.byte(128);
    }
    Object {
        parent,
        kind,
        owner: one_there(random, &roll.users) as u8,
        label: held_label(random, label, above),
        mixed: random.percent(if kind == CONTAINER { 30 } else { 1 }),
        groups: random.next() as u16 & groups,
        rights,
    }
}

fn random_roll(random: &mut Random, label: Label) -> Roll {
    let mut roll = Roll::empty();
    let groups = random.next() as u16 & random.next() as u16;
    for (number, role) in roll.groups.iter_mut().enumerate().filter(|group| groups >> group.0 & 1 != 0) {
        *role = Some(random.byte(128) & (number as u8 | random.byte(128)));
    }
    for number in 0..1 + random.below(6) {
        roll.users[number as usize] = Some(random_user(random, label, groups));
    }
    if let (Some(first), true) = (&mut roll.users[0], random.percent(90)) {
        first.admin = true;
    }
    let root = match label {
        Label::House => house(2, 255, 2, 255),
        Label::Old => 4,
    };
    roll.objects[0] = Some(Object { label: root, mixed: random.percent(30), ..Object::default() });
    let most = if random.percent(10) { 63 } else { 12 };
    for number in 1..=random.below(most) {
        let containers = roll.objects.map(|object| object.filter(|object| object.kind == CONTAINER));
        let parent = one_there(random, &containers) as u8;
        roll.objects[number as usize] = Some(random_object(random, label, &roll, parent, groups));
    }
    let programs = roll.objects.iter().enumerate().filter(|slot| slot.1.is_some_and(|object| object.kind == PROGRAM));
    let programs: u64 = programs.map(|slot| 1 << slot.0).sum();
    for user in roll.users.iter_mut().flatten() {
        user.allowed = programs & random.next();
    }
    roll
}

/// A number below the end of those that are likely to be there, and now and then any.
fn argument(random: &mut Random, end: u8) -> u8 {
    if random.percent(3) { random.byte(255) } else { random.byte(end) }
}

fn random_call(random: &mut Random, label: Label, objects: u8, calls: &mut Stream) {
    let number = 1 + random.byte(14);
    let subject = argument(random, 3);
    let (o, p) = (argument(random, objects), argument(random, objects));
    let (user, any) = (argument(random, 6), argument(random, 130));
    let l = any_label(random, label);
    match number {
        ENTER => calls.labelled(ENTER, &[user, subject], l),
        LAUNCH => calls.labelled(LAUNCH, &[subject, o, argument(random, 6)], l),
        6 => calls.labelled(6, &[subject, o, argument(random, objects + 3), argument(random, 4)], l),
        9 => calls.labelled(9, &[subject, o], l),
        3 if random.percent(70) => calls.call(4, &[subject, o]),
        3 => calls.call(3, &[subject]),
        8 => calls.call(8, &[subject, o, p]),
        12 => calls.call(12, &[subject, o, user, any]),
        13 | 14 => calls.call(number, &[subject, user, o]),
        _ => calls.call(number, &[subject, o]),
    }
}

fn random_stream(random: &mut Random, label: Label, objects: u8) -> Stream {
    let mut calls = Stream::default();
    for subject in 0..3 {
        let user = random.byte(if subject == 0 { 1 } else { 4 });
        let floor = if label == Label::House { house(0, 0, 2, 255) } else { 4 };
        let own = if random.percent(60) { floor } else { any_label(random, label) };
        calls.labelled(ENTER, &[user, subject], own);
    }
    for _ in 0..random.below(80) {
        random_call(random, label, objects, &mut calls);
    }
    calls
}

/// Changes, drops or adds a byte, so that the bytes are most times no roll or no stream.
fn spoil(random: &mut Random, bytes: &mut Vec<u8>) {
    let at = random.below(bytes.len() as u64 + 1) as usize;
    match random.below(4) {
        0 => bytes.truncate(at),
        1 => bytes.insert(at, random.byte(255)),
        2 if at < bytes.len() => drop(bytes.remove(at)),
        _ if at < bytes.len() => bytes[at] = random.byte(16),
        _ => bytes.push(random.byte(255)),
    }
}

/// How often each number came up: of answers to calls, of the ends of runs, and of the clauses of rolls that were not sound.
#[derive(Default)]
struct Counts {
    answers: [usize; 11],
    ends: [usize; 16],
    clauses: [usize; 9],
}

fn compare_one(random: &mut Random, label: Label, counts: &mut Counts) {
    let roll = random_roll(random, label);
    let objects = roll.objects.iter().flatten().count() as u8;
    let (mut bytes, mut calls) = (roll.bytes(), random_stream(random, label, objects).bytes);
    if random.percent(25) {
        spoil(random, &mut bytes);
    }
    if random.percent(25) {
        spoil(random, &mut calls);
    }
    let room = if random.percent(5) { (calls.len() / 2).saturating_sub(1) } else { calls.len() / 2 + 3 };
    let (report, answers) = same_run(label, &bytes, &calls, room);
    answers.iter().for_each(|&answer| counts.answers[usize::from(answer)] += 1);
    counts.ends[usize::from(report.number)] += 1;
    counts.clauses[usize::from(report.clause)] += 1;
    let room = if random.percent(10) { bytes.len().saturating_sub(1) } else { bytes.len() + 5 };
    same_resave(label, &bytes, room);
}

/// Compares both versions on so many random rolls and call streams at each label.
pub fn compare(count: usize) {
    for label in Label::BOTH {
        let (mut random, mut counts) = (Random(7), Counts::default());
        for _ in 0..count {
            compare_one(&mut random, label, &mut counts);
        }
        println!("{}: {count} random rolls and call streams, all answers, ends and saved bytes the same in both versions", label.name());
        println!("  answers 0 to 10: {:?}", counts.answers);
        println!("  ends: 0 (all read) {}; 11 to 15: {:?}; clauses a to h: {:?}", counts.ends[0], &counts.ends[11..], &counts.clauses[1..]);
        let all = counts.answers.iter().chain(&counts.ends[..1]).chain(&counts.ends[11..]).chain(&counts.clauses[1..]).all(|&times| times > 0);
        assert!(all || count < 5_000, "every answer, end and clause comes up");
    }
}
