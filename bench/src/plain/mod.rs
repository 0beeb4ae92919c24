//! The same guard as an ordinary Rust program, written from the rules in docs/ alone.

mod calls;
mod labels;
mod reader;
mod rolls;
mod rules;
mod sound;
mod tables;

use crate::Report;
use labels::{House, Old, Scheme};
use reader::Fault;
use rules::Guard;
use sound::Clause;
use tables::Tables;

/// Why a run or a resave stopped short.
enum Stop {
    Fault(Fault, usize),
    Unsound(Clause, usize),
    NoRoom,
}

impl Stop {
    fn report(self, written: usize) -> Report {
        let (number, place, clause) = match self {
            Stop::Fault(fault, place) => (fault as u8, place, 0),
            Stop::Unsound(clause, length) => (14, length, clause as u8),
            Stop::NoRoom => (15, 0, 0),
        };
        Report { written, place, number, clause }
    }
}

fn done(written: usize) -> Report {
    Report { written, place: 0, number: 0, clause: 0 }
}

/// The sound tables that a roll says.
fn load<S: Scheme>(scheme: &S, roll: &[u8]) -> Result<Tables, Stop> {
    let tables = rolls::read(roll).map_err(|(fault, place)| Stop::Fault(fault, place))?;
    match sound::first_failing(scheme, &tables) {
        None => Ok(tables),
        Some(clause) => Err(Stop::Unsound(clause, roll.len())),
    }
}

fn run<S: Scheme>(scheme: S, roll: &[u8], calls: &[u8], answers: &mut [u8]) -> Report {
    if answers.len() < calls.len() / 2 {
        return Stop::NoRoom.report(0);
    }
    let tables = match load(&scheme, roll) {
        Ok(tables) => tables,
        Err(stop) => return stop.report(0),
    };
    let mut guard = Guard { scheme, tables };
    let mut rest = calls;
    let mut answered = 0;
    while !rest.is_empty() {
        match calls::read(rest) {
            Ok((call, behind)) => {
                answers[answered] = guard.call(call).map_or_else(|refusal| refusal as u8, |()| 0);
                answered += 1;
                rest = behind;
            }
            Err(fault) => return Stop::Fault(fault, calls.len() - rest.len()).report(answered),
        }
    }
    done(answered)
}

fn resave<S: Scheme>(scheme: S, roll: &[u8], saved: &mut [u8]) -> Report {
    match load(&scheme, roll) {
        Ok(tables) => rolls::write(&tables, saved).map_or_else(|| Stop::NoRoom.report(0), done),
        Err(stop) => stop.report(0),
    }
}

#[inline(never)]
pub fn run_house(roll: &[u8], calls: &[u8], answers: &mut [u8]) -> Report {
    run(House, roll, calls, answers)
}

#[inline(never)]
pub fn run_old(roll: &[u8], calls: &[u8], answers: &mut [u8]) -> Report {
    run(Old, roll, calls, answers)
}

#[inline(never)]
pub fn resave_house(roll: &[u8], saved: &mut [u8]) -> Report {
    resave(House, roll, saved)
}

#[inline(never)]
pub fn resave_old(roll: &[u8], saved: &mut [u8]) -> Report {
    resave(Old, roll, saved)
}
