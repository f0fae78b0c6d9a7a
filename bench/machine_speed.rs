//! The machine's loop in plain Rust, as a yardstick for `machine_speed.py`.
//!
//! It does what `fx_machine_speed` does, on the same program: `machine_speed MECHANISM ROUNDS` prints the stop and
//! the number of turns. A turn checks the fetch and each access by the page's entry, which a buffer of 64
//! keeps, and by PKRU; the code is decoded once, and words are read and written whole where they lie in one
//! page.
//!
//! Only what the program needs of the layout and of the decoder stands here.

#[derive(Clone, Copy, PartialEq)]
enum Width {
    W8,
    W16,
    W32,
    W64,
}

#[derive(Clone, Copy)]
enum AluOp {
    Add,
    Sub,
    And,
    Or,
    Xor,
    Cmp,
    Test,
}

#[derive(Clone, Copy)]
struct Mem {
    base: u8,
    disp: i32,
}

#[derive(Clone, Copy)]
enum Inst {
    Mov { w: Width, dst: u8, src: u8 },
    Load { w: Width, dst: u8, mem: Mem },
    Store { w: Width, mem: Mem, src: u8 },
    MovImm { dst: u8, imm: i32 },
    MovImm64 { dst: u8, imm: u64 },
    Alu { op: AluOp, w: Width, dst: u8, src: u8 },
    AluImm { op: AluOp, w: Width, dst: u8, imm: i32 },
    Jcc { cond: u8, rel: i32 },
    Jmp { rel: i32 },
    Call { rel: i32 },
    Ret,
    Push { reg: u8 },
    Pop { reg: u8 },
    Hlt,
    Nop,
    Wrpkru,
}

#[derive(Clone, Copy)]
struct Line {
    inst: Inst,
    length: u8,
}

#[derive(Clone, Copy, Debug, PartialEq)]
enum Access {
    Read,
    Write,
    Fetch,
}

#[derive(Clone, Copy, Debug)]
enum Refusal {
    Unmapped,
    Permission,
    Key,
}

#[derive(Clone, Copy, Debug)]
enum Stop {
    Exit(i64),
    Page(u64, Access, Refusal),
    Invalid,
    Protection,
    Aborted,
}

#[derive(Clone, Copy, Debug)]
enum Turn {
    Went,
    Stopped(Stop),
}

const WRITE: u8 = 1;
const EXEC: u8 = 2;
const DEVICE: u8 = 4;

#[derive(Clone, Copy)]
struct Entry {
    flags: u8,
    key: u8,
}

#[derive(Clone, Copy)]
struct Slot {
    page: u64,
    entry: Option<Entry>,
}

#[derive(Clone, Copy, Default)]
struct Flags {
    cf: bool,
    zf: bool,
    sf: bool,
    of: bool,
}

#[derive(Default)]
struct Regs {
    gpr: [u64; 16],
    rip: u64,
    flags: Flags,
    pkru: u32,
}

const CODE: u64 = 0x40_0000;
const SECTIONS: u64 = 0x1000_0000;
const STACKS: u64 = 0x2000_1000;

struct Machine {
    keyed: bool,
    lines: Vec<Option<Line>>,
    slots: [Slot; 64],
    sections: Vec<u8>,
    stacks: Vec<u8>,
    cpus: Vec<Regs>,
    stop: Option<Stop>,
}

fn bytes_of(w: Width) -> u64 {
    match w {
        Width::W8 => 1,
        Width::W16 => 2,
        Width::W32 => 4,
        Width::W64 => 8,
    }
}

fn cut(w: Width, v: u64) -> u64 {
    match w {
        Width::W8 => v & 0xff,
        Width::W16 => v & 0xffff,
        Width::W32 => v & 0xffff_ffff,
        Width::W64 => v,
    }
}

fn top(w: Width) -> u64 {
    1 << (8 * bytes_of(w) - 1)
}

fn alu(op: AluOp, w: Width, a: u64, b: u64) -> (u64, Flags) {
    let (a, b, half) = (cut(w, a), cut(w, b), top(w));
    let (r, cf, of) = match op {
        AluOp::Add => {
            let r = cut(w, a.wrapping_add(b));
            (r, r < a, !(a ^ b) & (a ^ r) & half != 0)
        }
        AluOp::Sub | AluOp::Cmp => {
            let r = cut(w, a.wrapping_sub(b));
            (r, a < b, (a ^ b) & (a ^ r) & half != 0)
        }
        AluOp::And | AluOp::Test => (a & b, false, false),
        AluOp::Or => (a | b, false, false),
        AluOp::Xor => (a ^ b, false, false),
    };
    (r, Flags { cf, zf: r == 0, sf: r & half != 0, of })
}

fn holds(cond: u8, f: Flags) -> bool {
    let even = match cond >> 1 {
        0 => f.of,
        1 => f.cf,
        2 => f.zf,
        3 => f.cf || f.zf,
        4 => f.sf,
        6 => f.sf != f.of,
        _ => f.zf || f.sf != f.of,
    };
    even != (cond & 1 == 1)
}

fn load_word(bytes: &[u8], w: Width, at: usize) -> Option<u64> {
    Some(match w {
        Width::W8 => *bytes.get(at)? as u64,
        Width::W16 => u16::from_le_bytes(bytes.get(at..at + 2)?.try_into().ok()?) as u64,
        Width::W32 => u32::from_le_bytes(bytes.get(at..at + 4)?.try_into().ok()?) as u64,
        Width::W64 => u64::from_le_bytes(bytes.get(at..at + 8)?.try_into().ok()?),
    })
}

fn store_word(bytes: &mut [u8], w: Width, at: usize, v: u64) {
    let n = bytes_of(w) as usize;
    if let Some(place) = bytes.get_mut(at..at + n) {
        match w {
            Width::W8 => place[0] = v as u8,
            Width::W16 => place.copy_from_slice(&(v as u16).to_le_bytes()),
            Width::W32 => place.copy_from_slice(&(v as u32).to_le_bytes()),
            Width::W64 => place.copy_from_slice(&v.to_le_bytes()),
        }
    }
}

impl Machine {
    fn new(keyed: bool, code: &[u8]) -> Machine {
        let mut regs = Regs::default();
        regs.rip = CODE;
        regs.gpr[4] = 0x2000_1fe0;
        regs.pkru = if keyed { 0xffff_ffc0 } else { 0 };
        Machine {
            keyed,
            lines: (0..code.len()).map(|at| decode(&code[at..])).collect(),
            slots: [Slot { page: u64::MAX, entry: None }; 64],
            sections: vec![0; 4096],
            stacks: vec![0; 16 * 0x4000],
            cpus: vec![regs],
            stop: None,
        }
    }

    #[cold]
    fn find(&self, page: u64) -> Option<Entry> {
        let key = if self.keyed { 2 } else { 0 };
        let at = page * 4096;
        if at >= CODE && at - CODE < self.lines.len() as u64 {
            Some(Entry { flags: EXEC, key: 0 })
        } else if at >= SECTIONS && at - SECTIONS < self.sections.len() as u64 {
            Some(Entry { flags: WRITE, key })
        } else if at >= STACKS && at - STACKS < self.stacks.len() as u64 && (at - STACKS) % 0x4000 < 0x1000 {
            Some(Entry { flags: WRITE, key })
        } else {
            None
        }
    }

    fn entry(&mut self, page: u64) -> Option<Entry> {
        let at = ((page ^ (page >> 8)) % 64) as usize;
        if self.slots[at].page != page {
            self.slots[at] = Slot { page, entry: self.find(page) };
        }
        self.slots[at].entry
    }

    fn check(&mut self, pkru: u32, access: Access, address: u64) -> Result<(), Stop> {
        let refused = |why| Err(Stop::Page(address, access, why));
        let Some(entry) = self.entry(address / 4096) else {
            return refused(Refusal::Unmapped);
        };
        let (flag, lock) = match access {
            Access::Read => (0, 1),
            Access::Write => (WRITE, 3),
            Access::Fetch => (EXEC, 0),
        };
        // No program of the measurement has a device; the turn looks for one all the same.
        if entry.flags & flag != flag || entry.flags & DEVICE != 0 {
            return refused(Refusal::Permission);
        }
        if pkru >> (2 * entry.key) & lock != 0 {
            return refused(Refusal::Key);
        }
        Ok(())
    }

    fn check_all(&mut self, pkru: u32, access: Access, address: u64, n: u64) -> Result<(), Stop> {
        if address % 4096 + n <= 4096 {
            return self.check(pkru, access, address);
        }
        (0..n).try_for_each(|i| self.check(pkru, access, address.wrapping_add(i)))
    }

    fn load(&mut self, pkru: u32, w: Width, address: u64) -> Result<u64, Stop> {
        self.check_all(pkru, Access::Read, address, bytes_of(w))?;
        let (region, start) = if address >= STACKS { (&self.stacks, STACKS) } else { (&self.sections, SECTIONS) };
        Ok(load_word(region, w, address.wrapping_sub(start) as usize).unwrap_or(0))
    }

    fn store(&mut self, pkru: u32, w: Width, address: u64, v: u64) -> Result<(), Stop> {
        self.check_all(pkru, Access::Write, address, bytes_of(w))?;
        let (region, start) = if address >= STACKS { (&mut self.stacks, STACKS) } else { (&mut self.sections, SECTIONS) };
        store_word(region, w, address.wrapping_sub(start) as usize, v);
        Ok(())
    }

    fn step(&mut self, c: usize) -> Result<(), Stop> {
        let rip = self.cpus[c].rip;
        let pkru = self.cpus[c].pkru;
        self.check(pkru, Access::Fetch, rip)?;
        let Line { inst, length } = self.lines.get(rip.wrapping_sub(CODE) as usize).copied().flatten().ok_or(Stop::Invalid)?;
        let next = rip.wrapping_add(length as u64);
        let reg = |m: &Machine, r: u8| m.cpus[c].gpr[r as usize];
        let place = |m: &Machine, mem: Mem| reg(m, mem.base).wrapping_add(mem.disp as i64 as u64);
        let mut target = next;
        match inst {
            Inst::Mov { w, dst, src } => self.cpus[c].gpr[dst as usize] = cut(w, reg(self, src)),
            Inst::Load { w, dst, mem } => {
                let v = self.load(pkru, w, place(self, mem))?;
                self.cpus[c].gpr[dst as usize] = v;
            }
            Inst::Store { w, mem, src } => self.store(pkru, w, place(self, mem), reg(self, src))?,
            Inst::MovImm { dst, imm } => self.cpus[c].gpr[dst as usize] = imm as i64 as u64,
            Inst::MovImm64 { dst, imm } => self.cpus[c].gpr[dst as usize] = imm,
            Inst::Alu { op, w, dst, src } => self.alu(c, op, w, dst, reg(self, src)),
            Inst::AluImm { op, w, dst, imm } => self.alu(c, op, w, dst, imm as i64 as u64),
            Inst::Jcc { cond, rel } => {
                if holds(cond, self.cpus[c].flags) {
                    target = next.wrapping_add(rel as i64 as u64);
                }
            }
            Inst::Jmp { rel } => target = next.wrapping_add(rel as i64 as u64),
            Inst::Call { rel } => {
                let sp = reg(self, 4).wrapping_sub(8);
                self.store(pkru, Width::W64, sp, next)?;
                self.cpus[c].gpr[4] = sp;
                target = next.wrapping_add(rel as i64 as u64);
            }
            Inst::Ret => {
                let sp = reg(self, 4);
                target = self.load(pkru, Width::W64, sp)?;
                self.cpus[c].gpr[4] = sp.wrapping_add(8);
            }
            Inst::Push { reg: r } => {
                let sp = reg(self, 4).wrapping_sub(8);
                self.store(pkru, Width::W64, sp, reg(self, r))?;
                self.cpus[c].gpr[4] = sp;
            }
            Inst::Pop { reg: r } => {
                let sp = reg(self, 4);
                let v = self.load(pkru, Width::W64, sp)?;
                self.cpus[c].gpr[4] = sp.wrapping_add(8);
                self.cpus[c].gpr[r as usize] = v;
            }
            Inst::Hlt => {
                return Err(if reg(self, 0) == 0 { Stop::Exit(reg(self, 7) as i64) } else { Stop::Aborted });
            }
            Inst::Nop => {}
            Inst::Wrpkru => {
                if reg(self, 1) as u32 != 0 || reg(self, 2) as u32 != 0 {
                    return Err(Stop::Protection);
                }
                self.cpus[c].pkru = reg(self, 0) as u32;
            }
        }
        self.cpus[c].rip = target;
        Ok(())
    }

    fn alu(&mut self, c: usize, op: AluOp, w: Width, dst: u8, b: u64) {
        let regs = &mut self.cpus[c];
        let (r, flags) = alu(op, w, regs.gpr[dst as usize], b);
        regs.flags = flags;
        if !matches!(op, AluOp::Cmp | AluOp::Test) {
            regs.gpr[dst as usize] = r;
        }
    }

    fn turn(&mut self, v: u64) -> Turn {
        if let Some(stop) = self.stop {
            return Turn::Stopped(stop);
        }
        let count = self.cpus.len() as u64;
        let c = if count == 1 { 0 } else { (v % count) as usize };
        match self.step(c) {
            Ok(()) => Turn::Went,
            Err(stop) => {
                self.stop = Some(stop);
                Turn::Stopped(stop)
            }
        }
    }
}

fn four(text: &[u8]) -> Option<i32> {
    Some(i32::from_le_bytes(text.get(..4)?.try_into().ok()?))
}

/// The forms of the program: with a REX prefix for 64 bits, 50 +r, 0F 8x, E9, F4 and 90.
fn decode(text: &[u8]) -> Option<Line> {
    let line = |inst, length| Some(Line { inst, length });
    match *text {
        [0x50..=0x57, ..] => line(Inst::Push { reg: text[0] - 0x50 }, 1),
        [0x58..=0x5f, ..] => line(Inst::Pop { reg: text[0] - 0x58 }, 1),
        [0x90, ..] => line(Inst::Nop, 1),
        [0xc3, ..] => line(Inst::Ret, 1),
        [0xf4, ..] => line(Inst::Hlt, 1),
        [0x0f, 0x01, 0xef, ..] => line(Inst::Wrpkru, 3),
        [0x0f, op @ 0x80..=0x8f, ..] => line(Inst::Jcc { cond: op - 0x80, rel: four(&text[2..])? }, 6),
        [0xe9, ..] => line(Inst::Jmp { rel: four(&text[1..])? }, 5),
        [0xe8, ..] => line(Inst::Call { rel: four(&text[1..])? }, 5),
        [rex @ 0x48..=0x4f, op, modrm, ..] => decode_wide(text, rex, op, modrm),
        _ => None,
    }
}

fn decode_wide(text: &[u8], rex: u8, op: u8, modrm: u8) -> Option<Line> {
    let line = |inst, length| Some(Line { inst, length });
    let w = Width::W64;
    let (field, reg, base) = (modrm >> 3 & 7, (modrm >> 3 & 7) + (rex & 4) * 2, (modrm & 7) + (rex & 1) * 8);
    if (0xb8..=0xbf).contains(&op) {
        let imm = u64::from_le_bytes(text.get(2..10)?.try_into().ok()?);
        return line(Inst::MovImm64 { dst: op - 0xb8 + (rex & 1) * 8, imm }, 10);
    }
    match (op, modrm >> 6) {
        (0x8b, 2) => line(Inst::Load { w, dst: reg, mem: Mem { base, disp: four(&text[3..])? } }, 7),
        (0x89, 2) => line(Inst::Store { w, mem: Mem { base, disp: four(&text[3..])? }, src: reg }, 7),
        (0x89, 3) => line(Inst::Mov { w, dst: base, src: reg }, 3),
        (0xc7, 3) => line(Inst::MovImm { dst: base, imm: four(&text[3..])? }, 7),
        (0x81, 3) => {
            let op = [AluOp::Add, AluOp::Or, AluOp::Test, AluOp::Test, AluOp::And, AluOp::Sub, AluOp::Xor, AluOp::Cmp][field as usize];
            line(Inst::AluImm { op, w, dst: base, imm: four(&text[3..])? }, 7)
        }
        (0x01, 3) => line(Inst::Alu { op: AluOp::Add, w, dst: base, src: reg }, 3),
        (0x29, 3) => line(Inst::Alu { op: AluOp::Sub, w, dst: base, src: reg }, 3),
        _ => None,
    }
}

const BEFORE: &[u8] = b"\x49\xc7\xc0\0\0\0\x10\x48\x89\xe5\x48\xbb";
const AFTER: &[u8] = b"\x48\x8b\x85\xf0\xff\xff\xff\x48\x81\xc0\x03\0\0\0\x48\x89\x85\xf0\xff\xff\xff\x49\x8b\x88\x08\0\0\0\x48\x01\xc1\x49\x89\x88\x08\0\0\0\x50\x48\x81\xc4\x08\0\0\0\x48\x81\xeb\x01\0\0\0\x0f\x85\xc5\xff\xff\xff\x48\x89\xcf\x48\xc7\xc0\0\0\0\0\xf4";

fn main() {
    let words: Vec<u64> = std::env::args().skip(1).filter_map(|word| word.parse().ok()).collect();
    let [mechanism, rounds] = words[..] else {
        panic!("machine_speed MECHANISM ROUNDS");
    };
    let mut code = BEFORE.to_vec();
    code.extend(rounds.to_le_bytes());
    code.extend(AFTER);
    code.resize(8192, 0xf4);
    let mut machine = Machine::new(mechanism == 1, &code);
    let mut turns = 0u64;
    loop {
        turns += 1;
        if let Turn::Stopped(stop) = machine.turn(0) {
            println!("{stop:?} in {turns} turns");
            return;
        }
    }
}
