//! The two versions of the guard, side by side, at each of the two labels.

use crate::{Report, plain, proved};

type Run = fn(&[u8], &[u8], &mut [u8]) -> Report;
type Resave = fn(&[u8], &mut [u8]) -> Report;

/// One version of the guard at one label.
#[derive(Clone, Copy)]
pub struct Version {
    pub run: Run,
    pub resave: Resave,
}

#[derive(Clone, Copy, PartialEq, Eq)]
pub enum Label {
    House,
    Old,
}

impl Label {
    pub const BOTH: [Label; 2] = [Label::House, Label::Old];

    pub fn name(self) -> &'static str {
        match self {
            Label::House => "house label",
            Label::Old => "old label",
        }
    }

    pub fn plain(self) -> Version {
        match self {
            Label::House => Version { run: plain::run_house, resave: plain::resave_house },
            Label::Old => Version { run: plain::run_old, resave: plain::resave_old },
        }
    }

    pub fn proved(self) -> Version {
        match self {
            Label::House => Version { run: proved::run_house, resave: proved::resave_house },
            Label::Old => Version { run: proved::run_old, resave: proved::resave_old },
        }
    }
}

/// What stands in a lent buffer before a run, so that a byte that was written by mistake shows.
const FILL: u8 = 0xA5;

/// Runs both versions, and wants the same report and the same buffer of both. Gives the report and the answers.
pub fn same_run(label: Label, roll: &[u8], calls: &[u8], room: usize) -> (Report, Vec<u8>) {
    let (mut a, mut b) = (vec![FILL; room], vec![FILL; room]);
    let ordinary = (label.plain().run)(roll, calls, &mut a);
    let proved = (label.proved().run)(roll, calls, &mut b);
    assert_eq!(ordinary, proved, "the reports of a run differ: roll {roll:02x?}, calls {calls:02x?}");
    assert_eq!(a, b, "the answers of a run differ: roll {roll:02x?}, calls {calls:02x?}");
    a.truncate(ordinary.written);
    (ordinary, a)
}

/// The same for a roll that is loaded and saved.
pub fn same_resave(label: Label, roll: &[u8], room: usize) -> (Report, Vec<u8>) {
    let (mut a, mut b) = (vec![FILL; room], vec![FILL; room]);
    let ordinary = (label.plain().resave)(roll, &mut a);
    let proved = (label.proved().resave)(roll, &mut b);
    assert_eq!(ordinary, proved, "the reports of a resave differ: roll {roll:02x?}");
    assert_eq!(a, b, "the bytes of a resave differ: roll {roll:02x?}");
    a.truncate(ordinary.written);
    (ordinary, a)
}
