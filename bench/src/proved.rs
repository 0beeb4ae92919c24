//! The proved guard, from the static library `crates/guard_c`. A slice crosses as a pointer and a length.

use crate::Report;

#[link(name = "guard_c", kind = "static")]
unsafe extern "C" {
    fn gunmetalmaul_run_house(roll: *const u8, roll_len: usize, calls: *const u8, calls_len: usize, answers: *mut u8, answers_len: usize) -> Report;
    fn gunmetalmaul_run_old(roll: *const u8, roll_len: usize, calls: *const u8, calls_len: usize, answers: *mut u8, answers_len: usize) -> Report;
    fn gunmetalmaul_resave_house(roll: *const u8, roll_len: usize, saved: *mut u8, saved_len: usize) -> Report;
    fn gunmetalmaul_resave_old(roll: *const u8, roll_len: usize, saved: *mut u8, saved_len: usize) -> Report;
}

pub fn run_house(roll: &[u8], calls: &[u8], answers: &mut [u8]) -> Report {
    // The three slices are valid for the call, and the buffer is borrowed by nobody else.
    unsafe { gunmetalmaul_run_house(roll.as_ptr(), roll.len(), calls.as_ptr(), calls.len(), answers.as_mut_ptr(), answers.len()) }
}

pub fn run_old(roll: &[u8], calls: &[u8], answers: &mut [u8]) -> Report {
    unsafe { gunmetalmaul_run_old(roll.as_ptr(), roll.len(), calls.as_ptr(), calls.len(), answers.as_mut_ptr(), answers.len()) }
}

pub fn resave_house(roll: &[u8], saved: &mut [u8]) -> Report {
    unsafe { gunmetalmaul_resave_house(roll.as_ptr(), roll.len(), saved.as_mut_ptr(), saved.len()) }
}

pub fn resave_old(roll: &[u8], saved: &mut [u8]) -> Report {
    unsafe { gunmetalmaul_resave_old(roll.as_ptr(), roll.len(), saved.as_mut_ptr(), saved.len()) }
}
