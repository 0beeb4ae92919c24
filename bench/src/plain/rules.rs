//! The guard: what each call asks, and what it sets.

use super::calls::Call;
use super::labels::Scheme;
use super::tables::{Kind, OBJECTS, Object, Right, SUBJECTS, Subject, Tables, USERS, User};

/// Why a call is refused, in the order in which the conditions are asked.
#[derive(Clone, Copy)]
pub enum Refusal {
    NobodyThere = 1,
    SeatTaken,
    NoLabel,
    WrongKind,
    NoRight,
    NotListed,
    WrongWay,
    OutOfRange,
    WontNest,
    StillRigged,
}

use Refusal::*;

type Decision = Result<(), Refusal>;

fn ensure(holds: bool, refusal: Refusal) -> Decision {
    if holds { Ok(()) } else { Err(refusal) }
}

pub struct Guard<S> {
    pub scheme: S,
    pub tables: Tables,
}

/// A subject that calls, and its user.
struct Caller<'a> {
    number: u8,
    user: &'a User,
    label: u64,
}

impl<S: Scheme> Guard<S> {
    /// Decides a call and, if it is granted, makes its change.
    pub fn call(&mut self, call: Call) -> Decision {
        self.decide(call)?;
        self.apply(call);
        Ok(())
    }

    fn decide(&self, call: Call) -> Decision {
        match call {
            Call::Enter { user, number, label } => self.enter(user, number, label),
            Call::Launch { subject, program, number, label } => self.launch(subject, program, number, label),
            Call::Leave { subject } => self.caller(subject).map(|_| ()),
            Call::Read { subject, object } => self.read(subject, object),
            Call::Write { subject, object } => self.write(subject, object),
            Call::Create { subject, parent, number, kind, label } => self.create(subject, parent, number, kind, label),
            Call::Delete { subject, object } => self.delete(subject, object),
            Call::Move { subject, object, parent } => self.move_object(subject, object, parent),
            Call::Raise { subject, object, label } => self.raise(subject, object, label),
            Call::Mix { subject, object } => self.mix(subject, object),
            Call::Unmix { subject, object } => self.unmix(subject, object),
            Call::Rights { subject, object, user, set } => self.rights(subject, object, user, set),
            Call::Allow { subject, user, program } | Call::Bar { subject, user, program } => self.list(subject, user, program),
        }
    }

    fn caller(&self, subject: u8) -> Result<Caller<'_>, Refusal> {
        let Subject { user: number, label, .. } = *self.tables.subject(subject).ok_or(NobodyThere)?;
        // A subject's user is always there: users are neither made nor taken away by calls.
        let user = self.tables.user(number).ok_or(NobodyThere)?;
        Ok(Caller { number, user, label })
    }

    fn object(&self, object: u8) -> Result<&Object, Refusal> {
        self.tables.object(object).ok_or(NobodyThere)
    }

    fn has_right(&self, caller: &Caller, object: &Object, right: Right) -> Decision {
        ensure(self.tables.has_right(caller.number, caller.user, object, right), NoRight)
    }

    fn flows(&self, from: u64, to: u64) -> Decision {
        ensure(self.scheme.flows(from, to), WrongWay)
    }

    fn free_subject(&self, number: u8) -> Decision {
        ensure(usize::from(number) < SUBJECTS, NobodyThere)?;
        ensure(self.tables.subject(number).is_none(), SeatTaken)
    }

    fn in_range(&self, user: &User, label: u64) -> Decision {
        ensure(self.scheme.flows(user.floor, label) && self.scheme.flows(label, user.top), OutOfRange)
    }

    /// The label of an object's parent.
    fn parent_label(&self, object: &Object) -> u64 {
        self.tables.object(object.parent).map_or(0, |parent| parent.label)
    }

    fn enter(&self, user: u8, number: u8, label: u64) -> Decision {
        let user = self.tables.user(user).ok_or(NobodyThere)?;
        self.free_subject(number)?;
        ensure(self.scheme.is_label(label), NoLabel)?;
        self.in_range(user, label)
    }

    fn launch(&self, subject: u8, program: u8, number: u8, label: u64) -> Decision {
        let caller = self.caller(subject)?;
        let object = self.object(program)?;
        self.free_subject(number)?;
        ensure(self.scheme.is_label(label), NoLabel)?;
        ensure(object.kind == Kind::Program, WrongKind)?;
        self.has_right(&caller, object, Right::Execute)?;
        ensure(caller.user.allowed >> program & 1 != 0 || caller.user.admin, NotListed)?;
        self.flows(caller.label, label)?;
        self.flows(object.label, label)?;
        self.in_range(caller.user, label)
    }

    fn read(&self, subject: u8, object: u8) -> Decision {
        let (caller, object) = (self.caller(subject)?, self.object(object)?);
        self.has_right(&caller, object, Right::Read)?;
        self.flows(object.label, caller.label)
    }

    fn write(&self, subject: u8, object: u8) -> Decision {
        let (caller, object) = (self.caller(subject)?, self.object(object)?);
        ensure(object.kind == Kind::File, WrongKind)?;
        self.has_right(&caller, object, Right::Write)?;
        self.flows(caller.label, object.label)
    }

    fn create(&self, subject: u8, parent: u8, number: u8, kind: u8, label: u64) -> Decision {
        let (caller, container) = (self.caller(subject)?, self.object(parent)?);
        ensure(usize::from(number) < OBJECTS, NobodyThere)?;
        ensure(self.tables.object(number).is_none(), SeatTaken)?;
        ensure(self.scheme.is_label(label), NoLabel)?;
        ensure(container.kind == Kind::Container, WrongKind)?;
        let kind = Kind::from_number(kind).ok_or(WrongKind)?;
        self.has_right(&caller, container, Right::Create)?;
        ensure(kind != Kind::Program || caller.user.admin, NotListed)?;
        self.flows(caller.label, label)?;
        self.flows(caller.label, container.label)?;
        ensure(self.held_above(parent, label), WontNest)
    }

    fn delete(&self, subject: u8, number: u8) -> Decision {
        let (caller, object) = (self.caller(subject)?, self.object(number)?);
        self.has_right(&caller, object, Right::Delete)?;
        self.flows(caller.label, object.label)?;
        self.flows(caller.label, self.parent_label(object))?;
        let is_parent = self.tables.objects.iter().flatten().any(|child| child.parent == number);
        let runs = self.tables.subjects.iter().flatten().any(|subject| subject.program == Some(number));
        ensure(number != 0 && !is_parent && !runs, StillRigged)
    }

    fn move_object(&self, subject: u8, number: u8, parent: u8) -> Decision {
        let (caller, object) = (self.caller(subject)?, self.object(number)?);
        let container = self.object(parent)?;
        ensure(container.kind == Kind::Container, WrongKind)?;
        self.has_right(&caller, object, Right::Delete)?;
        self.has_right(&caller, container, Right::Create)?;
        let old_label = self.parent_label(object);
        self.flows(caller.label, object.label)?;
        self.flows(caller.label, old_label)?;
        self.flows(caller.label, container.label)?;
        self.flows(old_label, container.label)?;
        let inside_itself = parent == number || self.tables.lies_under(parent, number);
        ensure(!inside_itself && self.held_above(parent, object.label), WontNest)?;
        ensure(self.under(number).all(|below| self.held_above(parent, below.label)), WontNest)
    }

    fn raise(&self, subject: u8, number: u8, label: u64) -> Decision {
        let (caller, object) = (self.caller(subject)?, self.object(number)?);
        ensure(self.scheme.is_label(label), NoLabel)?;
        self.has_right(&caller, object, Right::WriteAttributes)?;
        self.flows(caller.label, object.label)?;
        self.flows(object.label, label)?;
        ensure(number == 0 || self.held_above(object.parent, label), WontNest)?;
        ensure(!object.is_unmixed_container() || self.holds_under(label, number), WontNest)
    }

    fn mix(&self, subject: u8, number: u8) -> Decision {
        let (caller, object) = (self.caller(subject)?, self.object(number)?);
        ensure(object.kind == Kind::Container, WrongKind)?;
        self.has_right(&caller, object, Right::WriteAttributes)?;
        self.flows(caller.label, object.label)
    }

    fn unmix(&self, subject: u8, number: u8) -> Decision {
        self.mix(subject, number)?;
        ensure(self.holds_under(self.object(number)?.label, number), WontNest)
    }

    fn rights(&self, subject: u8, object: u8, user: u8, set: u8) -> Decision {
        let (caller, object) = (self.caller(subject)?, self.object(object)?);
        ensure(self.tables.user(user).is_some(), NobodyThere)?;
        ensure(set < 128, WrongKind)?;
        self.has_right(&caller, object, Right::ChangeRights)?;
        self.flows(caller.label, object.label)
    }

    /// What putting a program on an allow list asks, and taking it off.
    fn list(&self, subject: u8, user: u8, program: u8) -> Decision {
        let (caller, object) = (self.caller(subject)?, self.object(program)?);
        ensure(self.tables.user(user).is_some(), NobodyThere)?;
        ensure(object.kind == Kind::Program, WrongKind)?;
        ensure(caller.user.admin, NotListed)
    }

    /// Does each unmixed container that is `number` or above it hold the label?
    fn held_above(&self, number: u8, label: u64) -> bool {
        std::iter::once(number)
            .chain(self.tables.ancestors(number))
            .filter_map(|above| self.tables.object(above))
            .all(|above| !above.is_unmixed_container() || self.scheme.holds(above.label, label))
    }

    /// The objects under an object, at any depth.
    fn under(&self, number: u8) -> impl Iterator<Item = &Object> {
        self.tables.numbered_objects().filter(move |&(x, _)| self.tables.lies_under(x, number)).map(|(_, object)| object)
    }

    /// Does the label hold everything under an object?
    fn holds_under(&self, label: u64, number: u8) -> bool {
        self.under(number).all(|below| self.scheme.holds(label, below.label))
    }

    /// Makes the change of a granted call.
    fn apply(&mut self, call: Call) {
        let tables = &mut self.tables;
        let user_of = |tables: &Tables, subject| tables.subject(subject).map_or(0, |subject: &Subject| subject.user);
        match call {
            Call::Enter { user, number, label } => tables.subjects[usize::from(number)] = Some(Subject { user, label, program: None }),
            Call::Launch { subject, program, number, label } => {
                let user = user_of(tables, subject);
                tables.subjects[usize::from(number)] = Some(Subject { user, label, program: Some(program) });
            }
            Call::Leave { subject } => tables.subjects[usize::from(subject)] = None,
            Call::Read { .. } | Call::Write { .. } => {}
            Call::Create { subject, parent, number, kind, label } => {
                let owner = user_of(tables, subject);
                let kind = Kind::from_number(kind).unwrap_or(Kind::Container);
                tables.objects[usize::from(number)] = Some(Object { kind, parent, owner, label, mixed: false, groups: 0, rights: [0; USERS] });
            }
            Call::Delete { object, .. } => {
                tables.objects[usize::from(object)] = None;
                tables.users.iter_mut().flatten().for_each(|user| user.allowed &= !(1 << object));
            }
            _ => self.apply_to_entry(call),
        }
    }

    /// Makes the change of a granted call that changes an entry in its place.
    fn apply_to_entry(&mut self, call: Call) {
        let object_number = match call {
            Call::Allow { user, program, .. } => return self.change_list(user, |list| list | 1 << program),
            Call::Bar { user, program, .. } => return self.change_list(user, |list| list & !(1 << program)),
            Call::Move { object, .. }
            | Call::Raise { object, .. }
            | Call::Mix { object, .. }
            | Call::Unmix { object, .. }
            | Call::Rights { object, .. } => object,
            _ => return,
        };
        let Some(object) = &mut self.tables.objects[usize::from(object_number)] else {
            return;
        };
        match call {
            Call::Move { parent, .. } => object.parent = parent,
            Call::Raise { label, .. } => object.label = label,
            Call::Mix { .. } => object.mixed = true,
            Call::Unmix { .. } => object.mixed = false,
            Call::Rights { user, set, .. } => object.rights[usize::from(user)] = set,
            _ => {}
        }
    }

    fn change_list(&mut self, user: u8, change: impl FnOnce(u64) -> u64) {
        if let Some(user) = &mut self.tables.users[usize::from(user)] {
            user.allowed = change(user.allowed);
        }
    }
}
