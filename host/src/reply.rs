//! The replies by their names, and in plain words.

use crate::Answer;
use std::fmt;

/// What a run or an audit answers.
#[derive(Clone, Copy, Debug, PartialEq, Eq)]
pub enum Reply {
    /// A step was carried out. A run doesn't end with it: its count tells of such steps.
    Done,
    Fault { vector: u32, code: u32, address: u32 },
    Trap { vector: u32, next: u32 },
    Halt { next: u32 },
    BadRecord,
    NoMemory { physical: u32 },
    NotBuilt { eip: u32 },
    Spent,
    Safe,
    TableOutside { index: u32 },
    Exposed { page: u32 },
}

impl Reply {
    /// The reply that an answer's number names; none above 10.
    pub fn of(answer: Answer) -> Option<Reply> {
        let Answer { number, a, b, c, .. } = answer;
        Some(match number {
            0 => Reply::Done,
            1 => Reply::Fault { vector: a, code: b, address: c },
            2 => Reply::Trap { vector: a, next: b },
            3 => Reply::Halt { next: a },
            4 => Reply::BadRecord,
            5 => Reply::NoMemory { physical: a },
            6 => Reply::NotBuilt { eip: a },
            7 => Reply::Spent,
            8 => Reply::Safe,
            9 => Reply::TableOutside { index: a },
            10 => Reply::Exposed { page: a },
            _ => return None,
        })
    }

    /// The document's number.
    pub fn number(self) -> u32 {
        match self {
            Reply::Done => 0,
            Reply::Fault { .. } => 1,
            Reply::Trap { .. } => 2,
            Reply::Halt { .. } => 3,
            Reply::BadRecord => 4,
            Reply::NoMemory { .. } => 5,
            Reply::NotBuilt { .. } => 6,
            Reply::Spent => 7,
            Reply::Safe => 8,
            Reply::TableOutside { .. } => 9,
            Reply::Exposed { .. } => 10,
        }
    }
}

impl fmt::Display for Reply {
    fn fmt(&self, f: &mut fmt::Formatter) -> fmt::Result {
        match *self {
            Reply::Done => write!(f, "Done: the step was carried out"),
            Reply::Fault { vector, code, address } => fault(f, vector, code, address),
            Reply::Trap { vector: 3, next } => write!(f, "Trap 3: the program stopped at a breakpoint, and would go on at {next:08X}"),
            Reply::Trap { vector, next } => write!(f, "Trap {vector}: the program called for service {vector}, and would go on at {next:08X}"),
            Reply::Halt { next } => write!(f, "Halt: the program told the processor to wait, and would go on at {next:08X}"),
            Reply::BadRecord => write!(f, "Bad record: the registers hold something that isn't allowed, or memory has a size that isn't"),
            Reply::NoMemory { physical } => write!(f, "No memory there: physical address {physical:08X} lies past the end of memory"),
            Reply::NotBuilt { eip } => write!(f, "Not built: this machine doesn't have the instruction at {eip:08X}"),
            Reply::Spent => write!(f, "Spent: every step that was asked for is done"),
            Reply::Safe => write!(f, "Safe: the user can't change the page tables"),
            Reply::TableOutside { index: 1024 } => write!(f, "Table outside: the page directory lies past the end of memory"),
            Reply::TableOutside { index } => write!(f, "Table outside: entry {index} of the page directory names a table past the end of memory"),
            Reply::Exposed { page } => write!(f, "Exposed: the user can change the page tables through the page at {page:08X}"),
        }
    }
}

fn fault(f: &mut fmt::Formatter, vector: u32, code: u32, address: u32) -> fmt::Result {
    match vector {
        0 => write!(f, "Fault 0: a division by zero, or one whose result is too large"),
        6 => write!(f, "Fault 6: an instruction that the processor doesn't define"),
        13 => write!(f, "Fault 13: protection, the program did what only the kernel may do, or its instruction is too long"),
        14 => {
            let who = if code & 4 != 0 { "user" } else { "kernel" };
            let what = if code & 2 != 0 { "write to" } else { "read of" };
            let why = if code & 1 != 0 { "is present but doesn't allow it" } else { "isn't present" };
            write!(f, "Fault 14: page fault, {who} {what} a page that {why}, at {address:08X}")
        }
        _ => write!(f, "Fault {vector}"),
    }
}
