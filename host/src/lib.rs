//! A safe wrapper of the proved Micro32 library, a software 80386.
//!
//! A [`Machine`] owns a record and a memory. [`Machine::run`] advances both in place; [`Machine::audit`] looks at the page
//! maps. Nothing has to be checked first: any record, any length of memory and any budget is answered by a [`Reply`].
//!
//! ```
//! use micro32::{Cpu, Machine, Reply};
//!
//! let mut memory = vec![0; 4096];
//! memory[..2].copy_from_slice(&[0x40, 0xF4]); // INC EAX; HLT
//! let mut machine = Machine::new(Cpu::default(), memory);
//! let ended = machine.run(100);
//! assert_eq!((ended.reply, ended.count), (Reply::Halt { next: 2 }, 1));
//! assert_eq!(machine.cpu.eax, 1);
//! ```

mod reply;

pub use reply::Reply;

/// The record: fourteen dwords in the order of include/micro32.h.
#[repr(C)]
#[derive(Clone, Copy, Debug, PartialEq, Eq)]
pub struct Cpu {
    pub eax: u32,
    pub ecx: u32,
    pub edx: u32,
    pub ebx: u32,
    pub esp: u32,
    pub ebp: u32,
    pub esi: u32,
    pub edi: u32,
    pub eip: u32,
    pub eflags: u32,
    pub cr0: u32,
    pub cr2: u32,
    pub cr3: u32,
    pub ring: u32,
}

impl Default for Cpu {
    /// The smallest sound record: ring 0, paging off, every flag clear, EIP 0.
    fn default() -> Cpu {
        Cpu { eax: 0, ecx: 0, edx: 0, ebx: 0, esp: 0, ebp: 0, esi: 0, edi: 0, eip: 0, eflags: 2, cr0: 1, cr2: 0, cr3: 0, ring: 0 }
    }
}

/// An answer as it crosses the boundary: a reply's number, its up to three values, and the count.
#[repr(C)]
#[derive(Clone, Copy, Debug, PartialEq, Eq)]
pub struct Answer {
    pub number: u32,
    pub a: u32,
    pub b: u32,
    pub c: u32,
    pub count: u32,
}

/// How a run ended: the last reply, and how many steps were Done before it.
#[derive(Clone, Copy, Debug, PartialEq, Eq)]
pub struct Ended {
    pub reply: Reply,
    pub count: u32,
}

mod library {
    use super::{Answer, Cpu};

    extern "C" {
        pub fn micro32_run(cpu: *mut Cpu, mem: *mut u8, len: usize, budget: u32) -> Answer;
        pub fn micro32_audit(cpu: Cpu, mem: *const u8, len: usize) -> Answer;
    }
}

fn reply_of(answer: Answer) -> Reply {
    Reply::of(answer).expect("the library is proved to answer with a number from 0 to 10")
}

/// Runs on a lent record and memory: both are advanced in place.
pub fn run_lent(cpu: &mut Cpu, memory: &mut [u8], budget: u32) -> Ended {
    // SAFETY: both are exclusive borrows, so neither pointer is null or dangling, they don't overlap, the record is aligned
    // and memory has its length. The library is proved to stay inside both and keeps neither.
    let answer = unsafe { library::micro32_run(cpu, memory.as_mut_ptr(), memory.len(), budget) };
    Ended { reply: reply_of(answer), count: answer.count }
}

/// Runs on a record by value, and hands the record after the run back.
pub fn run(mut cpu: Cpu, memory: &mut [u8], budget: u32) -> (Cpu, Ended) {
    let ended = run_lent(&mut cpu, memory, budget);
    (cpu, ended)
}

/// Do the page maps keep the user away from the directory and the tables?
pub fn audit(cpu: Cpu, memory: &[u8]) -> Reply {
    // SAFETY: memory is a borrow of its length, which the library only reads.
    reply_of(unsafe { library::micro32_audit(cpu, memory.as_ptr(), memory.len()) })
}

/// A machine that owns its record and its memory.
#[derive(Clone, Debug, PartialEq, Eq)]
pub struct Machine {
    pub cpu: Cpu,
    pub memory: Vec<u8>,
}

impl Machine {
    /// Any record and any length are taken: where they aren't sound, `run` and `audit` answer Bad record.
    pub fn new(cpu: Cpu, memory: Vec<u8>) -> Machine {
        Machine { cpu, memory }
    }

    /// Carries out at most `budget` steps. To go step by step, run with budget 1: Spent with count 1 where the step was carried out, else
    /// the reply that refused it, with count 0.
    pub fn run(&mut self, budget: u32) -> Ended {
        run_lent(&mut self.cpu, &mut self.memory, budget)
    }

    /// Looks at the page maps, and changes nothing.
    pub fn audit(&self) -> Reply {
        audit(self.cpu, &self.memory)
    }
}
