//! Each reply reached by a small guest, in numbers and in plain words.

use micro32::{Cpu, Ended, Machine, Reply};

/// A machine with a memory of so many pages, and bytes at some places of it.
fn machine(pages: usize, cpu: Cpu, parts: &[(usize, &[u8])]) -> Machine {
    let mut memory = vec![0; pages * 4096];
    for (at, bytes) in parts {
        memory[*at..*at + bytes.len()].copy_from_slice(bytes);
    }
    Machine::new(cpu, memory)
}

/// Runs code from address 0 with paging off.
fn ends(code: &[u8], cpu: Cpu) -> Ended {
    machine(1, cpu, &[(0, code)]).run(1000)
}

fn says(reply: Reply, number: u32, words: &str) {
    assert_eq!(reply.number(), number);
    assert_eq!(reply.to_string(), words);
}

/// Document 01's marked example: a user's page that may be read. The code stands at 401000.
fn marked(code: &[u8]) -> Machine {
    let cpu = Cpu { eip: 0x401000, cr0: 0x8000_0001, cr3: 0x1000, ring: 3, ..Cpu::default() };
    machine(
        6,
        cpu,
        &[(0x1004, &[0x07, 0x20, 0, 0]), (0x2004, &[0x05, 0x30, 0, 0]), (0x200C, &[0x05, 0x50, 0, 0]), (0x3000, code), (0x5A10, &[0x78, 0x56, 0x34, 0x12])],
    )
}

// Number 0 ends no run: a Done step is counted, and the run goes on or is Spent.
#[test]
fn done_is_counted() {
    let mut m = machine(1, Cpu::default(), &[(0, &[0x40])]);
    assert_eq!(m.run(1), Ended { reply: Reply::Spent, count: 1 });
    assert_eq!((m.cpu.eax, m.cpu.eip), (1, 1));
    says(Reply::Done, 0, "Done: the step was carried out");
}

#[test]
fn faults() {
    let divide = ends(&[0xF7, 0xF0], Cpu::default());
    assert_eq!(divide, Ended { reply: Reply::Fault { vector: 0, code: 0, address: 0 }, count: 0 });
    says(divide.reply, 1, "Fault 0: a division by zero, or one whose result is too large");
    let undefined = ends(&[0x0F, 0x0B], Cpu::default());
    assert_eq!(undefined.reply, Reply::Fault { vector: 6, code: 0, address: 0 });
    let protection = ends(&[0xF4], Cpu { ring: 3, ..Cpu::default() });
    assert_eq!(protection.reply, Reply::Fault { vector: 13, code: 0, address: 0 });
    assert!(protection.reply.to_string().starts_with("Fault 13: protection"));
}

#[test]
fn page_faults() {
    // MOV EAX,[403A10]; MOV [403A10],EAX
    let mut m = marked(&[0xA1, 0x10, 0x3A, 0x40, 0, 0xA3, 0x10, 0x3A, 0x40, 0]);
    let ended = m.run(10);
    assert_eq!(ended, Ended { reply: Reply::Fault { vector: 14, code: 7, address: 0x403A10 }, count: 1 });
    says(ended.reply, 1, "Fault 14: page fault, user write to a page that is present but doesn't allow it, at 00403A10");
    assert_eq!((m.cpu.eax, m.cpu.eip), (0x12345678, 0x401005));
    assert_eq!((&m.memory[0x1004..0x1008], &m.memory[0x200C..0x2010]), (&[0x27, 0x20, 0, 0][..], &[0x25, 0x50, 0, 0][..]));
    // MOV EAX,[0]
    let absent = marked(&[0xA1, 0, 0, 0, 0]).run(10).reply;
    says(absent, 1, "Fault 14: page fault, user read of a page that isn't present, at 00000000");
    assert_eq!(absent, Reply::Fault { vector: 14, code: 4, address: 0 });
}

#[test]
fn traps_and_halt() {
    let breakpoint = ends(&[0xCC], Cpu::default()).reply;
    assert_eq!(breakpoint, Reply::Trap { vector: 3, next: 1 });
    says(breakpoint, 2, "Trap 3: the program stopped at a breakpoint, and would go on at 00000001");
    let service = ends(&[0xCD, 0x21], Cpu::default()).reply;
    assert_eq!(service, Reply::Trap { vector: 0x21, next: 2 });
    says(service, 2, "Trap 33: the program called for service 33, and would go on at 00000002");
    let halt = ends(&[0x90, 0xF4], Cpu::default());
    assert_eq!(halt, Ended { reply: Reply::Halt { next: 2 }, count: 1 });
    says(halt.reply, 3, "Halt: the program told the processor to wait, and would go on at 00000002");
}

#[test]
fn bad_record_and_no_memory() {
    let bad = ends(&[0x90], Cpu { ring: 1, ..Cpu::default() });
    assert_eq!(bad, Ended { reply: Reply::BadRecord, count: 0 });
    says(bad.reply, 4, "Bad record: the registers hold something that isn't allowed, or memory has a size that isn't");
    // MOV EAX,[0FFE]: its third byte is past the end
    let past = ends(&[0xA1, 0xFE, 0x0F, 0, 0], Cpu::default()).reply;
    assert_eq!(past, Reply::NoMemory { physical: 0x1000 });
    says(past, 5, "No memory there: physical address 00001000 lies past the end of memory");
}

#[test]
fn not_built_and_spent() {
    let input = ends(&[0x90, 0xE4, 0x60], Cpu::default());
    assert_eq!(input, Ended { reply: Reply::NotBuilt { eip: 1 }, count: 1 });
    says(input.reply, 6, "Not built: this machine doesn't have the instruction at 00000001");
    let forever = ends(&[0xEB, 0xFE], Cpu::default());
    assert_eq!(forever, Ended { reply: Reply::Spent, count: 1000 });
    says(forever.reply, 7, "Spent: every step that was asked for is done");
}

#[test]
fn audits() {
    let safe = machine(2, Cpu::default(), &[]).audit();
    assert_eq!(safe, Reply::Safe);
    says(safe, 8, "Safe: the user can't change the page tables");
    let table = machine(2, Cpu::default(), &[(12, &[1, 0, 0x10, 0])]).audit();
    assert_eq!(table, Reply::TableOutside { index: 3 });
    says(table, 9, "Table outside: entry 3 of the page directory names a table past the end of memory");
    let directory = machine(2, Cpu { cr3: 0x2000, ..Cpu::default() }, &[]).audit();
    assert_eq!(directory, Reply::TableOutside { index: 1024 });
    says(directory, 9, "Table outside: the page directory lies past the end of memory");
    // entry 0 names the table at 1000, whose entry 5 names frame 0, the directory's own
    let exposed = machine(2, Cpu::default(), &[(0, &[7, 0x10, 0, 0]), (0x1014, &[7, 0, 0, 0])]).audit();
    assert_eq!(exposed, Reply::Exposed { page: 0x5000 });
    says(exposed, 10, "Exposed: the user can change the page tables through the page at 00005000");
}
