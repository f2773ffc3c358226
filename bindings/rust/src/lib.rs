//! The proved step of a node, for Rust.
//!
//! The functions of the archive take any bytes and any numbers. What they ask of a caller, true
//! pointers and lengths and no overlap, slices and references give; so these functions are safe.

use std::error::Error;
use std::fmt;

/// The codes of an answer: it was answered.
pub const OK: u32 = 0;
/// The plan is refused: `value` is its first line that fails, from 1, `detail` the premise.
pub const PLAN: u32 = 1;
/// An argument is wrong: `detail` says which.
pub const ARGUMENT: u32 = 3;
/// There are more than 1,000,000 packets.
pub const TOO_LONG: u32 = 8;
/// The bytes end inside the packet `value`, at the cell of node `detail`.
pub const CUT: u32 = 9;
/// Memory was refused.
pub const NO_MEMORY: u32 = 10;

/// Wrong arguments: the plan has no such node.
pub const NO_NODE: u32 = 1;
/// The state has another length than the node's.
pub const LENGTH: u32 = 2;

/// The premises of a line of a plan, in the order in which they are tested.
pub const FORM: u32 = 1;
pub const LIMIT: u32 = 2;
pub const BLOCKS: u32 = 3;
pub const MODULUS: u32 = 4;
pub const QUORUM: u32 = 5;
pub const SHARE: u32 = 6;
pub const MULTIPLE: u32 = 7;
/// Of a halving plan: it tolerates no faults, and has more than one node.
pub const SINGLE: u32 = 8;

/// No state has more bytes.
pub const MOST_BYTES: usize = 128;

/// What the first line of a plan may be, that is not skipped.
pub const FIRST_LINE: &str = "`plan 1`, `plan 2` or `halving 1`";

/// What an answer's code and detail say, in words for a person.
pub fn told(code: u32, detail: u32) -> &'static str {
    match (code, detail) {
        (OK, _) => "answered",
        (PLAN, FORM) => "refused by form: the line is not one that may stand there",
        (PLAN, LIMIT) => "refused by limit: a number is too large",
        (PLAN, BLOCKS) => "refused by blocks: a level has fewer than three",
        (PLAN, MODULUS) => "refused by modulus: it is below 2",
        (PLAN, QUORUM) => "refused by quorum: too few nodes for so many faults",
        (PLAN, SHARE) => "refused by share: its blocks tolerate too few faults",
        (PLAN, MULTIPLE) => "refused by multiple: the modulus below is no multiple of the span",
        (PLAN, SINGLE) => "refused by single: no faults, but more than one node",
        (PLAN, _) => "the plan is refused",
        (ARGUMENT, NO_NODE) => "the plan has no such node",
        (ARGUMENT, LENGTH) => "the state has another length than the node's",
        (ARGUMENT, _) => "an argument is wrong",
        (TOO_LONG, _) => "there are more than 1,000,000 packets",
        (CUT, _) => "the bytes end inside a packet",
        (NO_MEMORY, _) => "memory was refused",
        _ => "no code of this library",
    }
}

/// What a call answers: the codes are the constants above. As an error it says them in words.
#[repr(C)]
#[derive(Clone, Copy, Debug, PartialEq, Eq)]
pub struct Answer {
    pub code: u32,
    pub detail: u32,
    pub value: u64,
}

/// The numbers of a plan.
#[repr(C)]
#[derive(Clone, Copy, Debug, Default, PartialEq, Eq)]
pub struct PlanNumbers {
    pub nodes: u32,
    pub faults: u32,
    pub modulus: u64,
    pub bound: u64,
}

/// The layout that the archive has.
const _: () = {
    use std::mem::{offset_of, size_of};
    assert!(size_of::<Answer>() == 16);
    assert!(offset_of!(Answer, code) == 0);
    assert!(offset_of!(Answer, detail) == 4);
    assert!(offset_of!(Answer, value) == 8);
    assert!(size_of::<PlanNumbers>() == 24);
    assert!(offset_of!(PlanNumbers, nodes) == 0);
    assert!(offset_of!(PlanNumbers, faults) == 4);
    assert!(offset_of!(PlanNumbers, modulus) == 8);
    assert!(offset_of!(PlanNumbers, bound) == 16);
};

mod archive {
    use super::{Answer, PlanNumbers};

    extern "C" {
        pub fn counterlab_plan(plan: *const u8, size: usize, numbers: *mut PlanNumbers) -> Answer;
        pub fn counterlab_state_bytes(plan: *const u8, size: usize, id: u32) -> Answer;
        pub fn counterlab_output(
            plan: *const u8,
            size: usize,
            id: u32,
            state: *const u8,
            state_size: usize,
        ) -> Answer;
        pub fn counterlab_step(
            plan: *const u8,
            size: usize,
            id: u32,
            state: *mut u8,
            state_size: usize,
            packets: *const u8,
            packets_size: usize,
        ) -> Answer;
    }
}

impl fmt::Display for Answer {
    fn fmt(&self, f: &mut fmt::Formatter<'_>) -> fmt::Result {
        f.write_str(told(self.code, self.detail))?;
        match (self.code, self.detail, self.value) {
            (PLAN, FORM, 1) => write!(f, " (line 1): it should be {FIRST_LINE}"),
            (PLAN, _, line) => write!(f, " (line {line})"),
            (CUT, node, packet) => write!(f, " (packet {packet}, the cell of node {node})"),
            _ => Ok(()),
        }
    }
}

impl Error for Answer {}

impl Answer {
    /// The value, or the answer itself if its code is not 0.
    pub fn ok(self) -> Result<u64, Answer> {
        match self.code {
            0 => Ok(self.value),
            _ => Err(self),
        }
    }
}

/// The numbers of a plan.
pub fn plan(text: &[u8]) -> Result<PlanNumbers, Answer> {
    let mut numbers = PlanNumbers::default();
    unsafe { archive::counterlab_plan(text.as_ptr(), text.len(), &mut numbers) }.ok()?;
    Ok(numbers)
}

/// How many bytes a state of node `id` has.
pub fn state_bytes(text: &[u8], id: u32) -> Result<u64, Answer> {
    unsafe { archive::counterlab_state_bytes(text.as_ptr(), text.len(), id) }.ok()
}

/// What node `id` shows in a state.
pub fn output(text: &[u8], id: u32, state: &[u8]) -> Result<u64, Answer> {
    let (at, size) = (state.as_ptr(), state.len());
    unsafe { archive::counterlab_output(text.as_ptr(), text.len(), id, at, size) }.ok()
}

/// Steps node `id` once for each packet, and says how many these were; after an error the state is
/// as it was.
pub fn step(text: &[u8], id: u32, state: &mut [u8], packets: &[u8]) -> Result<u64, Answer> {
    let (at, size) = (state.as_mut_ptr(), state.len());
    let (first, rest) = (packets.as_ptr(), packets.len());
    unsafe { archive::counterlab_step(text.as_ptr(), text.len(), id, at, size, first, rest) }.ok()
}
