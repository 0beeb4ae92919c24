//! Calls, and how they are written in a call stream.

use super::reader::{Fault, Fields};

#[derive(Clone, Copy)]
pub enum Call {
    Enter { user: u8, number: u8, label: u64 },
    Launch { subject: u8, program: u8, number: u8, label: u64 },
    Leave { subject: u8 },
    Read { subject: u8, object: u8 },
    Write { subject: u8, object: u8 },
    Create { subject: u8, parent: u8, number: u8, kind: u8, label: u64 },
    Delete { subject: u8, object: u8 },
    Move { subject: u8, object: u8, parent: u8 },
    Raise { subject: u8, object: u8, label: u64 },
    Mix { subject: u8, object: u8 },
    Unmix { subject: u8, object: u8 },
    Rights { subject: u8, object: u8, user: u8, set: u8 },
    Allow { subject: u8, user: u8, program: u8 },
    Bar { subject: u8, user: u8, program: u8 },
}

/// Reads the call in front, and gives what is left behind it.
pub fn read(bytes: &[u8]) -> Result<(Call, &[u8]), Fault> {
    let Some((&[map, number], rest)) = bytes.split_first_chunk() else {
        return Err(Fault::CutShort);
    };
    let arguments = match number {
        3 => 1,
        4 | 5 | 7 | 10 | 11 => 2,
        1 | 8 | 9 | 13 | 14 => 3,
        2 | 12 => 4,
        6 => 5,
        _ => return Err(Fault::BadForm),
    };
    if map >> arguments != 0 {
        return Err(Fault::BadForm);
    }
    let mut fields = Fields::new(rest, map);
    let call = read_arguments(number, &mut fields).ok_or(Fault::CutShort)?;
    let rest = fields.end().ok_or(Fault::BadForm)?;
    Ok((call, rest))
}

fn read_arguments(number: u8, a: &mut Fields) -> Option<Call> {
    Some(match number {
        1 => Call::Enter { user: a.byte()?, number: a.byte()?, label: a.long()? },
        2 => Call::Launch { subject: a.byte()?, program: a.byte()?, number: a.byte()?, label: a.long()? },
        3 => Call::Leave { subject: a.byte()? },
        4 => Call::Read { subject: a.byte()?, object: a.byte()? },
        5 => Call::Write { subject: a.byte()?, object: a.byte()? },
        6 => Call::Create { subject: a.byte()?, parent: a.byte()?, number: a.byte()?, kind: a.byte()?, label: a.long()? },
        7 => Call::Delete { subject: a.byte()?, object: a.byte()? },
        8 => Call::Move { subject: a.byte()?, object: a.byte()?, parent: a.byte()? },
        9 => Call::Raise { subject: a.byte()?, object: a.byte()?, label: a.long()? },
        10 => Call::Mix { subject: a.byte()?, object: a.byte()? },
        11 => Call::Unmix { subject: a.byte()?, object: a.byte()? },
        12 => Call::Rights { subject: a.byte()?, object: a.byte()?, user: a.byte()?, set: a.byte()? },
        13 => Call::Allow { subject: a.byte()?, user: a.byte()?, program: a.byte()? },
        _ => Call::Bar { subject: a.byte()?, user: a.byte()?, program: a.byte()? },
    })
}
