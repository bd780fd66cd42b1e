//! The layout against include/micro32.h, the record in place, and bad input.

use micro32::{audit, run, Answer, Cpu, Ended, Machine, Reply};
use std::mem::{align_of, offset_of, size_of};

const HEADER: &str = include_str!("../../include/micro32.h");

/// The names of the dwords of a struct of the header, in order.
fn fields(name: &str) -> Vec<&'static str> {
    let start = HEADER.find(&format!("struct {name} {{")).expect("the struct stands in the header");
    let body = HEADER[start..].split('{').nth(1).unwrap().split('}').next().unwrap();
    body.lines().map(str::trim).filter(|l| !l.is_empty()).map(|l| l.strip_prefix("uint32_t ").and_then(|l| l.strip_suffix(';')).expect("a dword on each line")).collect()
}

/// The header's number of a reply.
fn number(name: &str) -> u32 {
    let line = HEADER.lines().map(str::trim).find(|l| l.starts_with(&format!("{name} = "))).expect("the reply stands in the header");
    line.split(['=', ',', '/']).nth(1).unwrap().trim().parse().unwrap()
}

macro_rules! offsets {
    ($t:ty, $($f:ident)*) => { vec![$((stringify!($f), offset_of!($t, $f))),*] };
}

fn each_a_dword(names: Vec<&'static str>) -> Vec<(&'static str, usize)> {
    names.into_iter().enumerate().map(|(i, name)| (name, 4 * i)).collect()
}

#[test]
fn layout_is_the_headers() {
    assert_eq!((size_of::<Cpu>(), align_of::<Cpu>()), (56, 4));
    assert_eq!(each_a_dword(fields("micro32_cpu")), offsets!(Cpu, eax ecx edx ebx esp ebp esi edi eip eflags cr0 cr2 cr3 ring));
    assert_eq!((size_of::<Answer>(), align_of::<Answer>()), (20, 4));
    assert_eq!(each_a_dword(fields("micro32_answer")), offsets!(Answer, number a b c count));
}

#[test]
fn numbers_are_the_headers() {
    let names = ["DONE", "FAULT", "TRAP", "HALT", "BAD_RECORD", "NO_MEMORY", "NOT_BUILT", "SPENT", "SAFE", "TABLE_OUTSIDE", "EXPOSED"];
    for (i, name) in names.iter().enumerate() {
        let answer = Answer { number: i as u32, a: 11, b: 12, c: 13, count: 0 };
        assert_eq!(number(&format!("MICRO32_{name}")), Reply::of(answer).unwrap().number());
        assert_eq!(i as u32, Reply::of(answer).unwrap().number());
    }
    assert_eq!(Reply::of(Answer { number: 11, a: 0, b: 0, c: 0, count: 0 }), None);
}

/// MOV ECX,10; XOR EAX,EAX; ADD EAX,ECX; MOV [100],EAX; LOOP to the ADD; HLT
fn sum() -> Machine {
    let mut memory = vec![0; 8192];
    memory[..17].copy_from_slice(&[0xB9, 10, 0, 0, 0, 0x31, 0xC0, 0x01, 0xC8, 0xA3, 0, 1, 0, 0, 0xE2, 0xF7, 0xF4]);
    Machine::new(Cpu { edi: 0xDEAD_BEEF, cr2: 5, ..Cpu::default() }, memory)
}

#[test]
fn advanced_in_place_as_by_value() {
    for budget in [0, 1, 2, 3, 17, 31, 32, 33, 1000, u32::MAX] {
        let (mut lent, given) = (sum(), sum());
        let mut memory = given.memory.clone();
        let (after, ended) = run(given.cpu, &mut memory, budget);
        assert_eq!(lent.run(budget), ended);
        assert_eq!((lent.cpu, &lent.memory), (after, &memory));
        assert_eq!(given, sum());
    }
}

#[test]
fn a_run_is_its_steps() {
    let (mut whole, mut single) = (sum(), sum());
    let ended = whole.run(1000);
    assert_eq!(ended, Ended { reply: Reply::Halt { next: 17 }, count: 32 });
    for _ in 0..32 {
        assert_eq!(single.run(1), Ended { reply: Reply::Spent, count: 1 });
    }
    assert_eq!(single.run(1), Ended { reply: Reply::Halt { next: 17 }, count: 0 });
    assert_eq!(whole, single);
    assert_eq!((whole.cpu.eax, whole.cpu.edi, whole.cpu.cr2, whole.memory[0x100]), (55, 0xDEAD_BEEF, 5, 55));
}

#[test]
fn lengths_that_are_not_allowed() {
    for length in [0, 1, 4095, 4097, 6144, 16_777_215, 16_777_217, 16_777_216 + 4096] {
        let mut m = Machine::new(Cpu::default(), vec![0x90; length]);
        let before = m.clone();
        for budget in [0, 1, u32::MAX] {
            assert_eq!(m.run(budget), Ended { reply: Reply::BadRecord, count: 0 });
        }
        assert_eq!(m.audit(), Reply::BadRecord);
        assert!(m == before);
    }
    assert_eq!(Machine::new(Cpu::default(), vec![0x90; 16_777_216]).run(1000), Ended { reply: Reply::Spent, count: 1000 });
}

#[test]
fn records_that_are_not_sound() {
    let good = Cpu::default();
    let mut bad = vec![Cpu { eflags: 0, ..good }, Cpu { cr0: 0, ..good }, Cpu { ring: 1, ..good }, Cpu { ring: 2, ..good }, Cpu { ring: 4, ..good }];
    let beside = |free: &[u32]| (0..32).filter(|b| !free.contains(b)).map(|b| 1 << b).collect::<Vec<u32>>();
    bad.extend(beside(&[0, 1, 2, 4, 6, 7, 9, 10, 11, 12, 13]).iter().map(|b| Cpu { eflags: 2 | b, ..good }));
    bad.extend(beside(&[0, 4, 16, 31]).iter().map(|b| Cpu { cr0: 1 | b, ..good }));
    bad.extend((0..12).filter(|b| *b != 3 && *b != 4).map(|b| Cpu { cr3: 1 << b, ..good }));
    assert_eq!(bad.len(), 5 + 21 + 28 + 10);
    for cpu in bad {
        let mut m = Machine::new(cpu, vec![0x90; 4096]);
        assert_eq!((m.run(0), m.run(5)), (Ended { reply: Reply::BadRecord, count: 0 }, Ended { reply: Reply::BadRecord, count: 0 }));
        assert_eq!(audit(cpu, &m.memory), Reply::BadRecord);
        assert!(m.cpu == cpu && m.memory == vec![0x90; 4096]);
    }
}

#[test]
fn budget_zero_does_nothing() {
    let mut m = sum();
    assert_eq!(m.run(0), Ended { reply: Reply::Spent, count: 0 });
    assert_eq!(m, sum());
}
