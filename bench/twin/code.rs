//! From the units of a method to its acts, with their successors and handlers.

use crate::act::{Act, Answer, Args, Throws};
use crate::dex::{CodeItem, Try};
use crate::tag::Tag;

/// What the rest of the application says of the numbers in an instruction.
pub trait Names {
    /// The lock field that an object access finds.
    fn lock(&self, field: u16) -> Option<u8>;
    /// The type in the application.
    fn kind(&self, kind: u16) -> u32;
    fn is_throwable(&self, kind: u32) -> bool;
    /// A number for a call of this opcode.
    fn call(&mut self, op: u8, method: u16, args: Args) -> u32;
}

pub struct Step {
    pub act: Act,
    pub pc: u32,
    successors: (u32, u32),
    catch: Option<u32>,
}

/// The possible handlers of a throw, and whether it may leave the method too.
pub struct Catch {
    pub handlers: Vec<u32>,
    pub leaves: bool,
}

pub struct Code {
    pub registers: u16,
    pub ins: u16,
    pub steps: Vec<Step>,
    successors: Vec<u32>,
    catches: Vec<Catch>,
}

impl Code {
    pub fn none() -> Code {
        Code { registers: 0, ins: 0, steps: Vec::new(), successors: Vec::new(), catches: Vec::new() }
    }

    pub fn successors(&self, index: usize) -> &[u32] {
        let (start, end) = self.steps[index].successors;
        &self.successors[start as usize..end as usize]
    }

    pub fn handlers(&self, index: usize) -> &[u32] {
        self.steps[index].catch.map_or(&[], |catch| &self.catches[catch as usize].handlers)
    }

    pub fn may_leave(&self, index: usize) -> bool {
        self.steps[index].catch.is_none_or(|catch| self.catches[catch as usize].leaves)
    }
}

const NOWHERE: u32 = u32::MAX;

/// How many units an instruction takes.
fn width(op: u8) -> usize {
    match op {
        0x18 => 5,
        0x03 | 0x06 | 0x09 | 0x14 | 0x17 | 0x1B | 0x24..=0x26 | 0x2A..=0x2C | 0x6E..=0x72 | 0x74..=0x78 => 3,
        0x02 | 0x05 | 0x08 | 0x13 | 0x15 | 0x16 | 0x19 | 0x1A | 0x1C | 0x1F | 0x20 | 0x22 | 0x23 | 0x29 => 2,
        0x2D..=0x3D | 0x44..=0x6D | 0x90..=0xAF | 0xD0..=0xE2 => 2,
        _ => 1,
    }
}

fn payload_width(units: &[u16]) -> usize {
    let size = usize::from(units[1]);
    match units[0] {
        0x0100 => 2 * size + 4,
        0x0200 => 4 * size + 2,
        0x0300 => {
            let count = usize::from(units[2]) | usize::from(units[3]) << 16;
            (size * count).div_ceil(2) + 4
        }
        _ => 0,
    }
}

fn is_payload(unit: u16) -> bool {
    matches!(unit, 0x0100 | 0x0200 | 0x0300)
}

/// The places of the instructions, and which instruction stands at a place.
fn sweep(units: &[u16]) -> (Vec<u32>, Vec<u32>) {
    let (mut starts, mut index_of, mut pc) = (Vec::new(), vec![NOWHERE; units.len()], 0);
    while pc < units.len() {
        if is_payload(units[pc]) {
            pc += payload_width(&units[pc..]);
            continue;
        }
        index_of[pc] = starts.len() as u32;
        starts.push(pc as u32);
        pc += width(units[pc] as u8);
    }
    (starts, index_of)
}

fn long(units: &[u16], at: usize) -> i32 {
    (u32::from(units[at]) | u32::from(units[at + 1]) << 16) as i32
}

/// The distances to which a switch leads.
fn switch_targets(payload: &[u16]) -> Vec<i32> {
    let size = usize::from(payload[1]);
    let first = if payload[0] == 0x0100 { 4 } else { 2 + 2 * size };
    (0..size).map(|k| long(payload, first + 2 * k)).collect()
}

/// Whether control goes on to the next instruction, and by which distances it jumps.
fn ways(units: &[u16], pc: usize) -> (bool, Vec<i32>) {
    let at = &units[pc..];
    match at[0] as u8 {
        0x0E..=0x11 | 0x27 => (false, Vec::new()),
        0x00 => (at.len() > 1 && !is_payload(at[1]), Vec::new()),
        0x28 => (false, vec![i32::from((at[0] >> 8) as i8)]),
        0x29 => (false, vec![i32::from(at[1] as i16)]),
        0x2A => (false, vec![long(at, 1)]),
        0x2B | 0x2C => (true, switch_targets(&units[pc.wrapping_add_signed(long(at, 1) as isize)..])),
        0x32..=0x3D => (true, vec![i32::from(at[1] as i16)]),
        _ => (true, Vec::new()),
    }
}

fn catch_of(found: &Try, index_of: &[u32], names: &impl Names) -> Catch {
    let mut handlers = Vec::new();
    for (kind, address) in &found.handlers {
        handlers.push(index_of[*address as usize]);
        if kind.is_none_or(|kind| names.is_throwable(kind)) {
            return Catch { handlers, leaves: false };
        }
    }
    Catch { handlers, leaves: true }
}

fn args_of(at: &[u16], is_range: bool) -> Args {
    let count = (at[0] >> 8) as u8;
    if is_range {
        return Args::Range(at[2], count);
    }
    let [c, d, e, f] = std::array::from_fn(|k| at[2] >> (4 * k) & 15);
    let registers = [c, d, e, f, u16::from(count & 15)];
    let count = count >> 4;
    Args::List(std::array::from_fn(|k| if k < usize::from(count) { registers[k] } else { 0 }), count)
}

pub fn build(item: &CodeItem, names: &mut impl Names) -> Code {
    let (starts, index_of) = sweep(&item.units);
    let catches = item.tries.iter().map(|found| catch_of(found, &index_of, names)).collect();
    let mut code = Code { registers: item.registers, ins: item.ins, steps: Vec::new(), successors: Vec::new(), catches };
    let mut tries = item.tries.iter().enumerate().peekable();
    for (index, &pc) in starts.iter().enumerate() {
        let first = code.successors.len() as u32;
        let (goes_on, jumps) = ways(&item.units, pc as usize);
        if goes_on {
            code.successors.push(index as u32 + 1);
        }
        code.successors.extend(jumps.iter().map(|&jump| index_of[pc.wrapping_add_signed(jump) as usize]));
        while tries.next_if(|(_, found)| found.end <= pc).is_some() {}
        let catch = tries.peek().filter(|(_, found)| found.start <= pc).map(|&(number, _)| number as u32);
        let act = act_of(&item.units[pc as usize..], names);
        code.steps.push(Step { act, pc, successors: (first, code.successors.len() as u32), catch });
    }
    code
}

fn write(to: u16, tag: Tag, throws: Throws) -> Act {
    Act::Write { to, tag, wide: false, throws }
}

fn number(to: u16, wide: bool, throws: Throws) -> Act {
    Act::Write { to, tag: Tag::Any, wide, throws }
}

fn choice(throws: bool) -> Throws {
    if throws { Throws::ByChoice } else { Throws::Never }
}

fn act_of(at: &[u16], names: &mut impl Names) -> Act {
    let op = at[0] as u8;
    let (a, aa) = (at[0] >> 8 & 15, at[0] >> 8);
    match op {
        0x01..=0x0D => moved(op, at),
        0x0E => Act::Return(Answer::Nothing),
        0x0F | 0x11 => Act::Return(Answer::Register(aa)),
        0x10 => Act::Return(Answer::Wide),
        0x12..=0x1C => constant(op, at),
        0x1D => Act::Check(Throws::WhereNull(aa)),
        0x1F | 0x26 => Act::Check(Throws::ByChoice),
        0x20 => number(a, false, Throws::Never),
        0x21 => number(a, false, Throws::ByChoice),
        0x22 => Act::New { to: aa, kind: names.kind(at[1]) },
        0x23 => write(a, Tag::Solid, Throws::ByChoice),
        0x24 | 0x25 => Act::Fill(args_of(at, op == 0x25)),
        0x27 => Act::Throw(aa),
        0x2D..=0x31 => number(aa, false, Throws::Never),
        0x38 => Act::Test { value: aa, zero: 1 },
        0x39 => Act::Test { value: aa, zero: 0 },
        0x44..=0x6D => access(op, at, names),
        0x6E..=0x72 | 0x74..=0x78 => Act::Call(names.call(op, at[1], args_of(at, op >= 0x74))),
        0x7B..=0xE2 => sum(op, at),
        _ => Act::Go,
    }
}

fn moved(op: u8, at: &[u16]) -> Act {
    let (a, b, aa) = (at[0] >> 8 & 15, at[0] >> 12, at[0] >> 8);
    let (to, from) = match op {
        0x01 | 0x04 | 0x07 => (a, b),
        0x02 | 0x05 | 0x08 => (aa, at[1]),
        0x03 | 0x06 | 0x09 => (at[1], at[2]),
        0x0B => return number(aa, true, Throws::Never),
        0x0D => return write(aa, Tag::Solid, Throws::Never),
        _ => return Act::TakeResult { to: aa },
    };
    Act::Copy { to, from, wide: matches!(op, 0x04..=0x06) }
}

fn constant(op: u8, at: &[u16]) -> Act {
    let (a, b, aa) = (at[0] >> 8 & 15, at[0] >> 12, at[0] >> 8);
    let (to, is_zero) = match op {
        0x12 => (a, b == 0),
        0x13 | 0x15 => (aa, at[1] == 0),
        0x14 => (aa, at[1] == 0 && at[2] == 0),
        0x16..=0x19 => return number(aa, true, Throws::Never),
        _ => (aa, false),
    };
    write(to, if is_zero { Tag::Zero } else { Tag::Solid }, Throws::Never)
}

/// Reads and writes of arrays and fields.
fn access(op: u8, at: &[u16], names: &impl Names) -> Act {
    let (a, b, aa) = (at[0] >> 8 & 15, at[0] >> 12, at[0] >> 8);
    let lock = if matches!(op, 0x54 | 0x5B | 0x62 | 0x69) { names.lock(at[1]) } else { None };
    let null = Throws::WhereNull(b);
    match (op, lock) {
        (0x44..=0x4A, _) => number(aa, op == 0x45, Throws::ByChoice),
        (0x4B..=0x51, _) => Act::Give { from: aa, throws: Throws::ByChoice },
        (0x52..=0x58, None) => number(a, op == 0x53, null),
        (0x52..=0x58, Some(lock)) => Act::ReadLock { to: a, lock, throws: null },
        (0x59..=0x5F, None) => Act::Give { from: a, throws: null },
        (0x59..=0x5F, Some(lock)) => Act::WriteLock { from: a, lock, throws: null },
        (0x60..=0x66, None) => number(aa, op == 0x61, Throws::Never),
        (0x60..=0x66, Some(lock)) => Act::ReadLock { to: aa, lock, throws: Throws::Never },
        (_, None) => Act::Give { from: aa, throws: Throws::Never },
        (_, Some(lock)) => Act::WriteLock { from: aa, lock, throws: Throws::Never },
    }
}

/// Unary and binary operations; divisions of whole numbers throw.
fn sum(op: u8, at: &[u16]) -> Act {
    let (a, aa) = (at[0] >> 8 & 15, at[0] >> 8);
    match op {
        0x7B..=0x8F => {
            let wide = matches!(op, 0x7D | 0x7E | 0x80 | 0x81 | 0x83 | 0x86 | 0x88 | 0x89 | 0x8B);
            number(a, wide, Throws::Never)
        }
        0x90..=0xAF => {
            let wide = matches!(op, 0x9B..=0xA5 | 0xAB..=0xAF);
            number(aa, wide, choice(matches!(op, 0x93 | 0x94 | 0x9E | 0x9F)))
        }
        0xB0..=0xCF => {
            let wide = matches!(op, 0xBB..=0xC5 | 0xCB..=0xCF);
            number(a, wide, choice(matches!(op, 0xB3 | 0xB4 | 0xBE | 0xBF)))
        }
        0xD0..=0xD7 => number(a, false, choice(matches!(op, 0xD3 | 0xD4) && at[1] == 0)),
        _ => number(aa, false, choice(matches!(op, 0xDB | 0xDC) && at[1] >> 8 == 0)),
    }
}
