//! The statuses of a lock field, and what instructions do to them. A relation between statuses is a word: its byte s has the
//! statuses to which s leads, bit by bit. The statuses are A, C0, C1, C2, CT, U0, U1 and L, from 0 on.

use crate::act::{Act, Throws};
use crate::app::{App, By, Call, Usage};
use crate::tag::Tag;
use crate::tags::{Row, receiver};

pub const SAME: u64 = 0x8040_2010_0804_0201;
pub const NONE: u64 = 0;
pub const HELD: u8 = 0xDC;
const NULL: u8 = 0x81;

/// The columns of the status table, a byte for each status before.
const ACQUIRE: u64 = u64::from_le_bytes([0, 0x04, 0x08, 0x10, 0x10, 0x40, 0x40, 0x80]);
const ACQUIRE_THROWS: u64 = u64::from_le_bytes([0x01, 0, 0, 0, 0, 0, 0, 0x80]);
const RELEASE: u64 = u64::from_le_bytes([0, 0, 0x02, 0x04, 0x18, 0x20, 0x20, 0x80]);
const RELEASE_THROWS: u64 = u64::from_le_bytes([0x01, 0x02, 0, 0, 0, 0, 0, 0x80]);
const IS_HELD: u64 = u64::from_le_bytes([0, 0x02, 0x04, 0x08, 0x10, 0x20, 0x40, 0x80]);
const CALL_THROWS: u64 = ACQUIRE_THROWS;
const UNCOUNTED: u64 = u64::from_le_bytes([0, 0x20, 0x40, 0x40, 0x40, 0x20, 0x40, 0x80]);
const COUNTED: u64 = u64::from_le_bytes([0, 0x02, 0x04, 0x08, 0x10, 0x02, 0x1C, 0x80]);
const STORE: u64 = u64::from_le_bytes([0x02, 0x02, 0x80, 0x80, 0x80, 0x02, 0x80, 0x80]);
pub const CLEAR: u64 = u64::from_le_bytes([0x01, 0x01, 0x80, 0x80, 0x80, 0x01, 0x80, 0x80]);

/// Each status of a mask to itself.
pub fn itself(mask: u8) -> u64 {
    SAME & (u64::from(mask) * 0x0101_0101_0101_0101)
}

/// One relation after the other.
pub fn then(first: u64, second: u64) -> u64 {
    let rows = second.to_le_bytes();
    (0..8).fold(0, |word, s| word | (first >> s & 0x0101_0101_0101_0101) * u64::from(rows[s]))
}

/// The statuses to which some status leads.
pub fn image(relation: u64) -> u8 {
    relation.to_le_bytes().into_iter().fold(0, |mask, row| mask | row)
}

/// The statuses to which those of a mask lead.
pub fn lead(mask: u8, relation: u64) -> u8 {
    (0..8).filter(|s| mask >> s & 1 == 1).fold(0, |out, s| out | relation.to_le_bytes()[s])
}

/// Where what has this tag is not null, and where it is.
fn null_test(tag: Tag, lock: u8) -> (u64, u64) {
    match tag {
        Tag::Bot => (NONE, NONE),
        Tag::Zero => (NONE, SAME),
        Tag::Solid | Tag::New(_) => (SAME, NONE),
        Tag::Field(field) if field == lock => (itself(!NULL | 0x80), itself(NULL)),
        _ => (SAME, SAME),
    }
}

/// Where an instruction goes on by what it needs to be not null, and where it throws.
fn by_throws(throws: Throws, row: &Row, lock: u8) -> (u64, u64) {
    match throws {
        Throws::Never => (SAME, NONE),
        Throws::ByChoice => (SAME, SAME),
        Throws::WhereNull(register) => null_test(row[usize::from(register)], lock),
    }
}

fn test(tag: Tag, lock: u8, is_zero: bool) -> u64 {
    let (nonzero, zero) = match tag {
        Tag::Held(held) if held == lock => (itself(HELD), itself(!HELD | 0x80)),
        tag => null_test(tag, lock),
    };
    if is_zero { zero } else { nonzero }
}

fn stored(tag: Tag) -> u64 {
    match tag {
        Tag::New(_) => STORE,
        Tag::Zero => CLEAR,
        _ => NONE,
    }
}

/// Where a call's receiver lets it pass, and where it is null.
fn by_receiver(call: &Call, row: &Row, lock: u8) -> (u64, u64) {
    if call.by == By::Static && !call.usage.is_lock_call() {
        return (SAME, NONE);
    }
    null_test(receiver(row, call.args), lock)
}

/// The statuses at which a call enters its callees.
pub fn open(call: &Call, row: &Row, lock: u8) -> u64 {
    by_receiver(call, row, lock).0
}

/// The columns of a lock call.
fn columns(call: &Call, row: &Row) -> (u64, u64) {
    match call.usage {
        Usage::Acquire => (ACQUIRE, ACQUIRE_THROWS),
        Usage::Release => (RELEASE, RELEASE_THROWS),
        Usage::IsHeld => (IS_HELD, CALL_THROWS),
        _ => match row[usize::from(call.args.second())] {
            Tag::Bot => (NONE, NONE),
            Tag::Zero => (UNCOUNTED, CALL_THROWS),
            Tag::Solid => (COUNTED, CALL_THROWS),
            _ => (UNCOUNTED | COUNTED, CALL_THROWS),
        },
    }
}

fn call(call: &Call, outside: bool, row: &Row, lock: u8) -> (u64, u64) {
    let (passes, fails) = by_receiver(call, row, lock);
    if !call.usage.is_lock_call() {
        let passes = if outside || call.usage != Usage::Plain { passes } else { NONE };
        return (passes, passes | fails);
    }
    match receiver(row, call.args) {
        Tag::Bot => (NONE, NONE),
        Tag::Zero => (NONE, SAME),
        Tag::Field(field) if field == lock => columns(call, row),
        _ => (SAME, SAME),
    }
}

/// What an instruction does: where it goes on, to its successor of each number, and where it throws by itself.
pub struct Effect {
    pub passes: [u64; 2],
    pub throws: u64,
}

impl Effect {
    fn new(passes: u64, throws: u64) -> Effect {
        Effect { passes: [passes; 2], throws }
    }

    pub fn of(app: &App, act: Act, outside: bool, row: &Row, lock: u8) -> Effect {
        match act {
            Act::Go | Act::Copy { .. } | Act::TakeResult { .. } | Act::New { .. } | Act::Fill(_) => Effect::new(SAME, NONE),
            Act::Test { value, zero } => {
                let tag = row[usize::from(value)];
                Effect { passes: [0, 1].map(|number| test(tag, lock, number == zero)), throws: NONE }
            }
            Act::Write { throws, .. } | Act::ReadLock { throws, .. } | Act::Give { throws, .. } | Act::Check(throws) => {
                let (passes, fails) = by_throws(throws, row, lock);
                Effect::new(passes, fails)
            }
            Act::WriteLock { from, lock: own, throws } => {
                let (passes, fails) = by_throws(throws, row, lock);
                let change = if own == lock { stored(row[usize::from(from)]) } else { SAME };
                Effect::new(then(passes, change), fails)
            }
            Act::Throw(_) => Effect::new(NONE, SAME),
            Act::Return(_) => Effect::new(NONE, NONE),
            Act::Call(number) => {
                let (passes, throws) = call(&app.calls[number as usize], outside, row, lock);
                Effect::new(passes, throws)
            }
        }
    }

    /// A switch has more than two successors, and takes each alike.
    pub fn pass(&self, number: usize) -> u64 {
        self.passes[number.min(1)]
    }
}
