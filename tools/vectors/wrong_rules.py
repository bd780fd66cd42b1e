#!/usr/bin/python3
"""Changes one rule of the machine at a time in a copy, runs the program `vectors` there (`rt try`), and says which wrong rules the cases tell apart.

wrong_rules.py FOLDER [FIRST]: FOLDER is made and takes the copy; FIRST is the number of the rule to begin with. It first checks that each
rule stands exactly once in the source, and stops where one does not."""
import os
import shutil
import subprocess
import sys

TOP = os.path.join(os.path.dirname(os.path.abspath(__file__)), "../..")
A, B, AW, S, P, CC, G, X, E, N, D, M, R, U = (
    "alu", "alu/brief", "alu/word", "shifts", "products", "conditions", "paging", "access", "encoding", "fetch", "decode", "machine", "micro32", "audit")
Q, H, O, F, T, W = "keptpages", "keptpages/held", "outcome", "shortcut/bytes", "shortcut", "hops"  # the quick way's
I, K, L, C, Z, J, V, Y = "forms", "blocks", "strides", "strides/plain", "strides/ends", "strides/memory", "swift", "sprints"  # and its blocks'
# where it stands, the wrong rule in words, the text of the rule, the wrong text
RULES = [
    (B, "SBB's borrow is folded into the subtrahend", "let s = u64::from(y) + u64::from(c);", "let s = (u64::from(y) + u64::from(c)) % 0x1_0000_0000;"),
    (B, "the carries of a difference without the borrow", "< s),\n        into: W::carries(x ^ y ^ r),", "< s),\n        into: if W::VALUES == 256 { W::carries(x ^ y ^ r) } else { x ^ y ^ std::num::wrapping_add_u32(r, u32::from(c)) },"),
    (B, "the carries of a sum without the carry", "as u32,\n        into: W::carries(x ^ y ^ r),", "as u32,\n        into: if W::VALUES == 256 { W::carries(x ^ y ^ r) } else { x ^ y ^ std::num::wrapping_sub_u32(r, u32::from(c)) },"),
    (B, "OF of a sum of dwords is CF", "as u32,\n        into: W::carries(x ^ y ^ r),", "as u32,\n        into: if W::VALUES == 256 { W::carries(x ^ y ^ r) } else { W::carries(x ^ y ^ r) % 0x8000_0000 },"),
    (B, "OF of a difference of dwords is CF", "< s),\n        into: W::carries(x ^ y ^ r),", "< s),\n        into: if W::VALUES == 256 { W::carries(x ^ y ^ r) } else { W::carries(x ^ y ^ r) % 0x8000_0000 },"),
    (B, "OF of a sum of bytes is CF", "as u32,\n        into: W::carries(x ^ y ^ r),", "as u32,\n        into: if W::VALUES == 256 { W::carries(x ^ y ^ r) % 0x8000_0000 } else { W::carries(x ^ y ^ r) },"),
    (B, "OF of a difference of bytes is CF", "< s),\n        into: W::carries(x ^ y ^ r),", "< s),\n        into: if W::VALUES == 256 { W::carries(x ^ y ^ r) % 0x8000_0000 } else { W::carries(x ^ y ^ r) },"),
    (B, "carry out of a byte at 255", "out: (t / W::VALUES) as u32,", "out: if W::VALUES == 256 { ((t + 1) / 256) as u32 } else { (t / W::VALUES) as u32 },"),
    (A, "parity of the whole dword", "(x % 256).count_ones() % 2 == 0", "x.count_ones() % 2 == 0"),
    (A, "parity of seven bits", "(x % 256).count_ones() % 2 == 0", "(x % 128).count_ones() % 2 == 0"),
    (CC, "JP and SETP ask for SF too", "    P,\n", "    P + S,\n"),
    (CC, "JNP and SETNP are JP and SETP", "    P + NONE,", "    P,"),
    (CC, "JA and SETA ask for CF alone", "    C + Z + NONE,", "    C + NONE,"),
    (CC, "JLE and SETLE without ZF", "    Z + LESS,\n", "    LESS,\n"),
    (B, "AF kept after logic", "into: 0,\n        seen: W::showing(x),", "into: f.into % 0x8000_0000,\n        seen: W::showing(x),"),
    (A, "AF kept after TEST of dwords", "8 => logic(a & b, s),",
     "8 => {\n            let o = logic(a & b, s);\n            let mut t = o.status;\n            t.af = s.af & (W::VALUES != 256);\n            Out { value: o.value, status: t }\n        }"),
    (A, "AF kept after OR of bytes", "1 => logic(a | b, s),",
     "1 => {\n            let o = logic(a | b, s);\n            let mut t = o.status;\n            t.af = s.af & (W::VALUES == 256);\n            Out { value: o.value, status: t }\n        }"),
    (A, "INC and DEC change CF", "cf: s.cf,", "cf: o.status.cf,"),
    (A, "ADC of dwords without the carry", "2 => add(a, b, s.cf),", "2 => add(a, b, s.cf & (W::VALUES == 256)),"),
    (A, "SBB of bytes without the borrow", "3 => sub(a, b, s.cf),", "3 => sub(a, b, s.cf & (W::VALUES != 256)),"),
    (A, "TEST writes its result", "!((op == 7) | (op == 8))", "!(op == 7)"),
    (A, "NOT of a byte does nothing", "value: (W::VALUES - 1) as u32 - a.number(),", "value: if W::VALUES == 256 { a.number() } else { 0xffff_ffff - a.number() },"),
    (S, "a shift count of 32 and more is 31", "let n = count % 32;", "let n = if count < 32 { count } else { 31 };"),
    (S, "OF changed by every shift", "let of = if first { one } else { overflow(f) };", "let of = one;"),
    (S, "OF kept by a shift of 1", "let of = if first { one } else { overflow(f) };", "let of = overflow(f);"),
    (S, "CF kept by a shift", "alu::brief::beside(last, ", "alu::brief::beside(alu::brief::carry(f), "),
    (S, "CF of SHL from the first place", "let last = is_negative::<W>(p);", "let last = is_negative::<W>(if W::VALUES == 256 { x } else { p });"),
    (S, "OF of SHR of a byte is 0", "p % 2 == 1, is_negative::<W>(x))", "p % 2 == 1, (W::VALUES != 256) & is_negative::<W>(x))"),
    (S, "SAR of a byte brings in zeros", "let negative = is_negative::<W>(x);", "let negative = (W::VALUES != 256) & is_negative::<W>(x);"),
    (P, "IDIV refuses the most negative quotient", "if negative { m <= top } else { m < top }", "m < top"),
    (P, "OF kept by a multiply", "Status { cf: b, of: b, ..s }", "Status { cf: b, ..s }"),
    (P, "the remainder has the quotient's sign, dwords", "let rest = number(top, below, m % e);", "let rest = number(top, if W::VALUES == 256 { below } else { negative }, m % e);"),
    (P, "the remainder has no sign, bytes", "let rest = number(top, below, m % e);", "let rest = number(top, below & (W::VALUES != 256), m % e);"),
    (P, "DIV takes a quotient one too large", "if W::VALUES <= q {", "if W::VALUES < q {"),
    (G, "ring 0 ignores WP", "(!user | us) & (!(w & (user | wp)) | rw)", "(!user | us) & (!(w & user) | rw)"),
    (G, "ring 3 ignores U/S", "(!user | us) & (!(w & (user | wp)) | rw)", "!(w & (user | wp)) | rw"),
    (G, "ring 0 needs R/W without WP", "(!user | us) & (!(w & (user | wp)) | rw)", "(!user | us) & (!w | rw)"),
    (G, "U/S of the directory is ignored", "let us = (pde / 4 % 2 == 1) & (pte / 4 % 2 == 1);", "let us = pte / 4 % 2 == 1;"),
    (G, "R/W of the directory is ignored", "let rw = (pde / 2 % 2 == 1) & (pte / 2 % 2 == 1);", "let rw = pte / 2 % 2 == 1;"),
    (G, "a page fault's code without the write", "if w { present + 6 } else { present + 4 }", "present + 4"),
    (G, "a page fault's code without presence", "code(1, w, c.ring)", "code(0, w, c.ring)"),
    (G, "a page fault's code with presence where it is absent", "Reply::Fault(14, code(0, w, c.ring), l.0)", "Reply::Fault(14, code(1, w, c.ring), l.0)"),
    (X, "D marked by a read", "b % 32 + 96 + b / 128 * 128", "b % 32 + 32 + b / 64 * 64"),
    (X, "D marked in the directory", "touch(mem, e.dir, false);", "touch(mem, e.dir, w);"),
    (X, "D not marked by a write", "mark_page(mem, t.last, w);", "mark_page(mem, t.last, false);"),
    (X, "a dword over a page's end taken as one page's", "if l % 4096 <= 4092 {", "if l % 4096 <= 4093 {"),
    (N, "sixteen bytes are allowed", "if 15 <= n {", "if 16 <= n {"),
    (D, "SIB index 5 means none", "if s / 8 % 8 == 4 {", "if s / 8 % 8 == 5 {"),
    (D, "SIB base 5 never means EBP", "if (b % 8 == 5) & (md == 0) {", "if b % 8 == 5 {"),
    (N, "an 8-bit displacement without sign", "    alu::signed_byte(x)\n", "    x\n"),
    (M, "AH to BH write the low byte", "if n / 4 % 2 == 1 {\n        return old", "if n / 4 % 2 == 2 {\n        return old"),
    (M, "EFLAGS bit 3 is allowed", "(e / 8 % 2 == 0)", "true"),
    (E, "LEA of a register is built", "Class::LoadAddress => 192 <= m,", "Class::LoadAddress => false,"),
    (E, "F6 /1 is built", "Class::UnaryGroup => reg == 1,", "Class::UnaryGroup => false,"),
    (G, "the page's frame is its linear address", "let place = Physical(pte / 4096 * 4096 + l.0 % 4096);", "let place = Physical(l.0 % 4194304);"),
    (G, "the directory is at 1000h whatever CR3 says", "Physical(c.cr3 / 4096 * 4096 + l.0 / 4194304 * 4)", "Physical(4096 + l.0 / 4194304 * 4)"),
    (G, "the table is at 2000h whatever the directory says", "Physical(pde / 4096 * 4096 + l.0 / 4096 % 1024 * 4)", "Physical(8192 + l.0 / 4096 % 1024 * 4)"),
    (M, "any memory length is sound", "(n % 4096 == 0) & (4096 <= n)", "(4096 <= n)"),
    (M, "rings 1 and 2 are sound", "(k.ring == 0) | (k.ring == 3)", "k.ring < 4"),
    (R, "a run counts the refused step", "count: n,\n                reply: s.reply,", "count: n + 1,\n                reply: s.reply,"),
    (R, "Spent before Bad record", "if !machine::sound(mem.len(), c) {\n        return Ran {", "if (0 < budget) & !machine::sound(mem.len(), c) {\n        return Ran {"),
    (R, "a run stops one step early", "while n < budget {", "while n + 1 < budget {"),
    (R, "a run that is spent gives back the first record", "reply: Reply::Spent,\n        cpu: d,", "reply: Reply::Spent,\n        cpu: c,"),
    (R, "a run that is refused gives back the first record", "reply: s.reply,\n                cpu: d,", "reply: s.reply,\n                cpu: c,"),
    (U, "the audit forgets the directory's frame", "    cells::put(held, c.cr3 as usize / 4096, true);", "    cells::put(held, 4096, true);"),
    (U, "the audit forgets the tables' frames", "if e % 2 == 1 {\n        cells::put(", "if e % 2 == 2 {\n        cells::put("),
    (U, "the audit keeps the frames of user tables alone", "if e % 2 == 1 {\n        cells::put(", "if e % 8 == 7 {\n        cells::put("),
    (U, "the audit keeps the frames of absent tables too", "if e % 2 == 1 {\n        cells::put(", "if e % 2 < 2 {\n        cells::put("),
    (U, "Exposed names the highest page of a table", "(d * 1024..d * 1024 + 1024).find(|p| self.opens_at(*p, e))", "(d * 1024..d * 1024 + 1024).rev().find(|p| self.opens_at(*p, e))"),
    (U, "Exposed names the highest table's page", "if let Some(p) = self.open_in(d) {", "if let Some(p) = self.open_in(1023 - d) {"),
    (U, "Table outside names the highest index", "(0..1024).find(|d| strays(mem, c, *d))", "(0..1024).rev().find(|d| strays(mem, c, *d))"),
    (U, "an absent entry can be a table outside", "(e % 2 == 1) & !in_memory", "!in_memory"),
    (U, "a directory outside is index 0", "Reply::TableOutside(1024)", "Reply::TableOutside(0)"),
    (U, "a page is exposed without U/S in its table entry", "(x % 8 == 7) & cells::get", "(x % 4 == 3) & cells::get"),
    (U, "a page is exposed without R/W in its table entry", "(x % 8 == 7) & cells::get", "((x % 8 == 7) | (x % 8 == 5)) & cells::get"),
    (U, "a page is exposed without U/S in its directory entry", "if e % 8 != 7 {", "if e % 4 != 3 {"),
    (U, "a page is exposed without R/W in its directory entry", "if e % 8 != 7 {", "if (e % 8 != 7) & (e % 8 != 5) {"),
    (U, "the audit says Safe where PG is clear", "    tables(mem, c.control)\n", "    let k = c.control;\n    if k.cr0 < 0x8000_0000 {\n        return Reply::Safe;\n    }\n    tables(mem, k)\n"),
    (U, "the audit does not check the record", "if !machine::sound(mem.len(), c) {", "if mem.len() < 4096 {"),
    (Q, "quick: a supervisor's page is read by the user", "return passes(true, false, false, e.pde) & passes(true, false, false, e.pte);", "return passes(true, false, false, e.pde) & passes(false, false, false, e.pte);"),
    (Q, "quick: a read-only page is written by the user", "passes(true, true, true, e.pte)", "passes(true, false, true, e.pte)"),
    (Q, "quick: a clean page is written", "passes(true, true, true, e.pte)", "passes(true, true, false, e.pte)"),
    (H, "quick: a page of another table is kept", "if p.table != table {", "if p.table == 0xffff_ffff {"),
    (H, "quick: a page that is kept for reading is written", "        return 16 + k as usize;", "        return k as usize;"),
    (W, "quick: pages are kept after a store into their table", "(first == table) | (last == table) | ", ""),
    (W, "quick: pages are kept after a store into the directory", " | (first == dir) | (last == dir)", ""),
    (V, "quick: pages of data are kept where code of another table goes on", "if holds & (k.table == table) {", "if holds {"),
    (W, "quick: a dword over a page's end is taken as one page's", "4092 < p.at % 4096", "4094 < p.at % 4096"),
    (O, "quick: SBB of dwords without the borrow", "3 => brief::sub(x, y, brief::carry(f)),", "3 => brief::sub(x, y, brief::carry(f) & (W::VALUES == 256)),"),
    (O, "quick: INC of a dword changes CF", "10 => brief::keep_carry(f, brief::add(x, W::low(1), false)),",
     "10 if W::VALUES != 256 => brief::add(x, W::low(1), false),\n        10 => brief::keep_carry(f, brief::add(x, W::low(1), false)),"),
    (O, "quick: AF kept after TEST of bytes", "8 => brief::logic(x & y, f),",
     "8 => {\n            let r = brief::logic(x & y, f);\n            let mut g = r.flags;\n            g.into = if W::VALUES == 256 { f.into % 0x8000_0000 } else { 0 };\n            Short { value: r.value, flags: g }\n        }"),
    (O, "quick: AF kept after OR of dwords", "1 => brief::logic(x | y, f),",
     "1 => {\n            let r = brief::logic(x | y, f);\n            let mut g = r.flags;\n            g.into = if W::VALUES == 256 { 0 } else { f.into % 0x8000_0000 };\n            Short { value: r.value, flags: g }\n        }"),
    (O, "quick: a pop leaves ESP", "if (p.access == 5) | (p.access == 6) {", "if p.access == 6 {"),
    (O, "quick: AH to BH write the low byte", "machine::replaced(old, n, x)", "machine::replaced(old, n % 4, x)"),
    (F, "quick: an 8-bit displacement is past the dword's end", "upto: 4,", "upto: 7,"),
    (F, "quick: ESP and a byte are a base without SIB", "if (b / 64 == 1) & (b % 8 != 4) {", "if b / 64 == 1 {"),
    (F, "quick: a dword alone is EBP", "& ((b % 8 != 4) & (b % 8 != 5)) {", "& (b % 8 != 4) {"),
    (T, "quick: C7 by a byte", "(b % 2 == 1) & (b != 0x83)", "b == 0x81"),
    (T, "quick: 83 by a dword", "(b % 2 == 1) & (b != 0x83)", "b % 2 == 1"),
    (T, "quick: MOV for TEST", "b / 8 - b / 128 * 8", "b / 8 - b / 128 * 7"),
    (T, "quick: IMUL by a byte with a dword, and by a dword with a byte", "b == 0x69, m)", "b != 0x69, m)"),
    (W, "quick: an operation on memory has what lies there for both operands", "if (p.access == 1) | (p.access == 3) {\n        return Sought {\n            at: i,\n            value: v,\n            x: v,\n            y: p.y,", "if (p.access == 1) | (p.access == 3) {\n        return Sought {\n            at: i,\n            value: v,\n            x: v,\n            y: if p.access == 1 { p.y } else { v },"),
    (W, "quick: TEST of dwords sets no flags", "if (p.op == 9) & p.wide {", "if (p.op == 8) & p.wide {"),
    (I, "block: a displacement byte has no sign", "            upto: 3,\n            number: fetch::extend(shortcut::bytes::byte(mem, i + 2)),", "            upto: 3,\n            number: shortcut::bytes::byte(mem, i + 2),"),
    (I, "block: a form of MOV to memory is LEA's", "        kind: 64,", "        kind: 71,"),
    (K, "block: the bytes beyond the first eight are not compared", "(0..4).all(|k| g[s + k] == word(mem, i + 8 * k))", "(0..1).all(|k| g[s + k] == word(mem, i + 8 * k))"),
    (K, "block: the bytes beyond the first thirty-two are not compared", "    if g[s + 8] < 32 {", "    if g[s + 8] < 64 {"),
    (L, "block: ADC by a number is ADD", "18 => plain::by_number(e, r, f, next, 2),", "18 => plain::by_number(e, r, f, next, 0),"),
    (L, "block: SBB is SUB", "3 => plain::by_register(e, r, f, next, 3),", "3 => plain::by_register(e, r, f, next, 5),"),
    (C, "block: CMP writes its result", "    if (op == 7) | (op == 8) {", "    if op == 8 {"),
    (C, "block: a form by a number takes the other register", "outcome::dwords(op, register(e, f.a), f.number, s)", "outcome::dwords(op, register(e, f.b), f.number, s)"),
    (L, "block: JNE is JE", "53 => plain::jump_if(e, r, f, next, 5),", "53 => plain::jump_if(e, r, f, next, 4),"),
    (AW, "brief: a byte's carry into its top place is not at the top", "m + m * 0x100_0000", "m + m * 0x80_0000"),
    (B, "brief: INC and DEC change OF with CF", "g.into ^ ((f.out ^ g.out) % 2 * 0x8000_0000)", "g.into"),
    (B, "brief: AF is the carry into place 3", "f.into / 16 % 2 == 1", "f.into / 8 % 2 == 1"),
    (Z, "block: a store into the code page is not seen", "        return Ending::Done;", "        return Ending::Follows;"),
    (Z, "block: a dword over a page's end is taken as one page's", "    if 4092 < l % 4096 {", "    if 4095 < l % 4096 {"),
    (J, "block: POP and RET leave ESP too high", "top.wrapping_add(4)", "top.wrapping_add(8)"),
    (J, "block: CALL stores where it goes", "match crate::ends::store(mem, c, h, i, next) {", "match crate::ends::store(mem, c, h, i, next.wrapping_add(f.number)) {"),
    (Y, "block: the budget is not kept within a block", "    let size = least(g.size(s), limit);", "    let size = least(g.size(s), 23);"),
]


def source(top, place):
    """A crate's own file, or another of its files after a slash."""
    crate, _, file = place.partition("/")
    return os.path.join(top, "crates", crate, "src", (file or "lib") + ".rt")


def unplaced():
    """The rules whose text does not stand exactly once."""
    out = []
    for n, (crate, name, old, _) in enumerate(RULES):
        with open(source(TOP, crate)) as f:
            count = f.read().count(old)
        if count != 1:
            out.append(f"{n} {crate}: {name}: its text stands {count} times")
    return out


def copy(work):
    os.makedirs(work)
    shutil.copy(os.path.join(TOP, "crates.txt"), work)
    shutil.copytree(os.path.join(TOP, "crates"), os.path.join(work, "crates"), ignore=shutil.ignore_patterns("out"))


def verdict(work):
    """What the cases say of the machine as it stands in this copy. rt runs the program with no proof, its own lines beside what the program writes."""
    vectors = os.path.join(work, "crates", "vectors")
    data = [word for name in ("cases", "directed") for word in ("--data", f"{name}=data/{name}")]
    p = subprocess.run(["rt", "try", *data], cwd=vectors, stdout=subprocess.PIPE, stderr=subprocess.STDOUT, text=True)
    with open(os.path.join(vectors, "stdout")) as f:
        wanted = f.read()
    if p.stdout.startswith(wanted):
        return "NOT TOLD APART"
    return "told apart" if "agreed" in p.stdout and "ended" in p.stdout else "does not end"


def main():
    bad = unplaced()
    print("\n".join(bad) if bad else f"all {len(RULES)} rules stand exactly once", flush=True)
    if bad:
        sys.exit(1)
    work = sys.argv[1]
    copy(work)
    print("no rule changed:", verdict(work), flush=True)
    told = 0
    first = int(sys.argv[2]) if len(sys.argv) > 2 else 0
    for n, (crate, name, old, new) in enumerate(RULES[first:], first):
        with open(source(work, crate)) as f:
            right = f.read()
        with open(source(work, crate), "w") as f:
            f.write(right.replace(old, new))
        said = verdict(work)
        with open(source(work, crate), "w") as f:
            f.write(right)
        told += said == "told apart"
        print(n, crate, said + ":", name, flush=True)
    print(len(RULES) - first, "wrong rules tried,", told, "told apart")


if __name__ == "__main__":
    main()
