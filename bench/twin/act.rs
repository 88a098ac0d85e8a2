//! What an instruction does, as the analysis tells instructions apart.

use crate::tag::Tag;

#[derive(Clone, Copy)]
pub enum Throws {
    Never,
    ByChoice,
    WhereNull(u16),
}

#[derive(Clone, Copy)]
pub enum Answer {
    Nothing,
    Wide,
    Register(u16),
}

/// The registers of a call or a filled array.
#[derive(Clone, Copy)]
pub enum Args {
    List([u16; 5], u8),
    Range(u16, u8),
}

impl Args {
    pub fn iter(self) -> impl Iterator<Item = u16> {
        let count = match self {
            Args::List(_, count) | Args::Range(_, count) => count,
        };
        (0..u16::from(count)).map(move |k| self.at(k))
    }

    fn at(self, k: u16) -> u16 {
        match self {
            Args::List(registers, _) => registers[usize::from(k)],
            Args::Range(first, _) => first + k,
        }
    }

    pub fn receiver(self) -> u16 {
        self.at(0)
    }

    /// The argument behind the receiver.
    pub fn second(self) -> u16 {
        self.at(1)
    }
}

#[derive(Clone, Copy)]
pub enum Act {
    Go,
    /// Takes successor number `zero` where the value is zero.
    Test {
        value: u16,
        zero: usize,
    },
    Copy {
        to: u16,
        from: u16,
        wide: bool,
    },
    TakeResult {
        to: u16,
    },
    Write {
        to: u16,
        tag: Tag,
        wide: bool,
        throws: Throws,
    },
    /// Makes an object of a type.
    New {
        to: u16,
        kind: u32,
    },
    /// Makes an array of these registers, which comes into the result cell.
    Fill(Args),
    ReadLock {
        to: u16,
        lock: u8,
        throws: Throws,
    },
    WriteLock {
        from: u16,
        lock: u8,
        throws: Throws,
    },
    /// Into another field or an array.
    Give {
        from: u16,
        throws: Throws,
    },
    Check(Throws),
    Throw(u16),
    Return(Answer),
    /// By its number among all calls.
    Call(u32),
}

impl Act {
    pub fn throws(self) -> Throws {
        match self {
            Act::Write { throws, .. }
            | Act::ReadLock { throws, .. }
            | Act::WriteLock { throws, .. }
            | Act::Give { throws, .. }
            | Act::Check(throws) => throws,
            Act::Throw(_) | Act::Call(_) => Throws::ByChoice,
            _ => Throws::Never,
        }
    }
}
