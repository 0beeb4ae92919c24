//! When tables are sound.

use super::labels::Scheme;
use super::tables::{Kind, Tables, members};

/// What has to hold of sound tables, in the order in which it is checked, counted from 1.
#[derive(Clone, Copy)]
pub enum Clause {
    Groups = 1,
    Labels,
    Tree,
    Owners,
    Lists,
    Administrator,
    Nesting,
    Mixed,
}

/// The first clause that fails.
pub fn first_failing<S: Scheme>(scheme: &S, t: &Tables) -> Option<Clause> {
    if !groups_exist(t) {
        Some(Clause::Groups)
    } else if !labels_hold(scheme, t) {
        Some(Clause::Labels)
    } else if !is_tree(t) {
        Some(Clause::Tree)
    } else if !owners_exist(t) {
        Some(Clause::Owners)
    } else if !lists_name_programs(t) {
        Some(Clause::Lists)
    } else if !t.users.iter().flatten().any(|user| user.admin) {
        Some(Clause::Administrator)
    } else if !labels_nest(scheme, t) {
        Some(Clause::Nesting)
    } else if !only_containers_are_mixed(t) {
        Some(Clause::Mixed)
    } else {
        None
    }
}

fn groups_exist(t: &Tables) -> bool {
    let there = |groups: u16| members(u64::from(groups)).all(|group| t.groups[usize::from(group)].is_some());
    t.users.iter().flatten().all(|user| there(user.groups)) && t.objects.iter().flatten().all(|object| there(object.groups))
}

fn labels_hold<S: Scheme>(scheme: &S, t: &Tables) -> bool {
    t.users.iter().flatten().all(|user| scheme.is_label(user.floor) && scheme.is_label(user.top) && scheme.flows(user.floor, user.top))
        && t.objects.iter().flatten().all(|object| scheme.is_label(object.label))
}

fn is_kind(t: &Tables, number: u8, kind: Kind) -> bool {
    t.object(number).is_some_and(|object| object.kind == kind)
}

/// Is object 0 a container and its own parent, is every parent a container, and do parents lead to 0?
fn is_tree(t: &Tables) -> bool {
    is_kind(t, 0, Kind::Container)
        && t.object(0).is_some_and(|root| root.parent == 0)
        && t.numbered_objects().all(|(number, object)| is_kind(t, object.parent, Kind::Container) && (number == 0 || t.lies_under(number, 0)))
}

fn owners_exist(t: &Tables) -> bool {
    t.objects
        .iter()
        .flatten()
        .all(|object| t.user(object.owner).is_some() && object.rights.iter().zip(&t.users).all(|(&rights, user)| rights == 0 || user.is_some()))
}

fn lists_name_programs(t: &Tables) -> bool {
    t.users.iter().flatten().all(|user| members(user.allowed).all(|number| is_kind(t, number, Kind::Program)))
}

/// Does each unmixed container hold the label of every object under it?
fn labels_nest<S: Scheme>(scheme: &S, t: &Tables) -> bool {
    t.numbered_objects().all(|(number, object)| {
        t.ancestors(number).filter_map(|above| t.object(above)).all(|above| !above.is_unmixed_container() || scheme.holds(above.label, object.label))
    })
}

fn only_containers_are_mixed(t: &Tables) -> bool {
    t.objects.iter().flatten().all(|object| !object.mixed || object.kind == Kind::Container)
}
