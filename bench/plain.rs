//! The flat machine of this repository written in plain Rust: the same instructions, decoder, memory
//! and loop, without contracts. `bench/run` measures the proved program against it.
//!
//! Usage: plain FILE runs the ELF file as `swic plain FILE` does, and ends with the guest's status; plain FILE BYTES WORDS runs
//! it as `swic cached FILE --cache BYTES --block WORDS` does (cached.rs).

mod cached;
mod micro;

use micro::{MicroOp, WordRange, micro_op, step, stop};
use std::io::{Read, Write};
use std::{env, fs, io, process};

#[derive(Clone, Copy)]
struct Reg {
    number: u32,
}

impl Reg {
    #[inline(always)]
    fn of(number: u32) -> Reg {
        Reg { number }
    }

    #[inline(always)]
    fn num(self) -> u32 {
        self.number
    }
}

#[derive(Clone, Copy)]
enum BranchOp {
    Beq,
    Bne,
    Blt,
    Bge,
    Bltu,
    Bgeu,
}

#[derive(Clone, Copy)]
enum LoadOp {
    Lb,
    Lh,
    Lw,
    Lbu,
    Lhu,
}

#[derive(Clone, Copy)]
enum StoreOp {
    Sb,
    Sh,
    Sw,
}

#[derive(Clone, Copy)]
enum ImmOp {
    Addi,
    Slti,
    Sltiu,
    Xori,
    Ori,
    Andi,
    Slli,
    Srli,
    Srai,
}

#[derive(Clone, Copy)]
enum RegOp {
    Add,
    Sub,
    Sll,
    Slt,
    Sltu,
    Xor,
    Srl,
    Sra,
    Or,
    And,
    Mul,
    Mulh,
    Mulhsu,
    Mulhu,
    Div,
    Divu,
    Rem,
    Remu,
}

#[derive(Clone, Copy)]
enum AtomicOp {
    LrW,
    ScW,
    SwapW,
    AddW,
    XorW,
    AndW,
    OrW,
    MinW,
    MaxW,
    MinuW,
    MaxuW,
}

#[derive(Clone, Copy)]
enum Instr {
    Lui { rd: Reg, imm: u32 },
    Auipc { rd: Reg, imm: u32 },
    Jal { rd: Reg, off: u32 },
    Jalr { rd: Reg, rs1: Reg, imm: u32 },
    Branch { op: BranchOp, rs1: Reg, rs2: Reg, off: u32 },
    Load { op: LoadOp, rd: Reg, rs1: Reg, imm: u32 },
    Store { op: StoreOp, rs1: Reg, rs2: Reg, imm: u32 },
    Alu { op: ImmOp, rd: Reg, rs1: Reg, imm: u32 },
    Op { op: RegOp, rd: Reg, rs1: Reg, rs2: Reg },
    Atomic { op: AtomicOp, rd: Reg, rs1: Reg, rs2: Reg },
    Fence,
    Ecall,
    Ebreak,
}

#[inline(always)]
fn bits<const HI: u32, const LO: u32>(w: u32) -> u32 {
    (w >> LO) & (u32::MAX >> (31 + LO - HI))
}

#[inline(always)]
fn sign<const N: u32>(v: u32) -> u32 {
    let top = 1 << (N - 1);
    (v ^ top).wrapping_sub(top)
}

#[inline(always)]
fn rd(w: u32) -> Reg {
    Reg::of(bits::<11, 7>(w))
}

#[inline(always)]
fn rs1(w: u32) -> Reg {
    Reg::of(bits::<19, 15>(w))
}

#[inline(always)]
fn rs2(w: u32) -> Reg {
    Reg::of(bits::<24, 20>(w))
}

#[inline(always)]
fn i_value(w: u32) -> u32 {
    sign::<12>(bits::<31, 20>(w))
}

#[inline(always)]
fn s_value(w: u32) -> u32 {
    sign::<12>(bits::<31, 25>(w) * 32 + bits::<11, 7>(w))
}

#[inline(always)]
fn b_value(w: u32) -> u32 {
    sign::<13>(bits::<31, 31>(w) * 4096 + bits::<7, 7>(w) * 2048 + bits::<30, 25>(w) * 32 + bits::<11, 8>(w) * 2)
}

#[inline(always)]
fn u_value(w: u32) -> u32 {
    bits::<31, 12>(w) << 12
}

#[inline(always)]
fn j_value(w: u32) -> u32 {
    sign::<21>(bits::<31, 31>(w) * 1_048_576 + bits::<19, 12>(w) * 4096 + bits::<20, 20>(w) * 2048 + bits::<30, 21>(w) * 2)
}

#[inline(always)]
fn decode(w: u32) -> Option<Instr> {
    macro_rules! upper {
        ($variant:ident) => { Some(Instr::$variant { rd: rd(w), imm: u_value(w) }) };
    }
    macro_rules! jal {
        () => { Some(Instr::Jal { rd: rd(w), off: j_value(w) }) };
    }
    macro_rules! jalr {
        () => { Some(Instr::Jalr { rd: rd(w), rs1: rs1(w), imm: i_value(w) }) };
    }
    macro_rules! branch {
        ($op:ident) => { Some(Instr::Branch { op: BranchOp::$op, rs1: rs1(w), rs2: rs2(w), off: b_value(w) }) };
    }
    macro_rules! load {
        ($op:ident) => { Some(Instr::Load { op: LoadOp::$op, rd: rd(w), rs1: rs1(w), imm: i_value(w) }) };
    }
    macro_rules! store {
        ($op:ident) => { Some(Instr::Store { op: StoreOp::$op, rs1: rs1(w), rs2: rs2(w), imm: s_value(w) }) };
    }
    macro_rules! alu {
        ($op:ident) => { Some(Instr::Alu { op: ImmOp::$op, rd: rd(w), rs1: rs1(w), imm: i_value(w) }) };
    }
    macro_rules! shift {
        ($op:ident) => { Some(Instr::Alu { op: ImmOp::$op, rd: rd(w), rs1: rs1(w), imm: bits::<24, 20>(w) }) };
    }
    macro_rules! op {
        ($op:ident) => { Some(Instr::Op { op: RegOp::$op, rd: rd(w), rs1: rs1(w), rs2: rs2(w) }) };
    }
    macro_rules! atomic {
        ($op:ident) => { Some(Instr::Atomic { op: AtomicOp::$op, rd: rd(w), rs1: rs1(w), rs2: rs2(w) }) };
    }
    // Three bits of the opcode part the table's rows into five groups, so that few tests are made of a word. Within
    // a group the rows stand in the order in which programs execute them, since a test that comes early costs less:
    // no word matches two rows, so the order changes nothing else. Rows of another mask or group stand between those
    // of loads, branches and operations on immediates: of four tests in a row, a step apart, the compiler makes a
    // jump through a table, which on many machines costs more than they do.
    macro_rules! row {
        ($mask:literal, $value:literal, $instr:expr) => {
            if w & $mask == $value {
                return $instr;
            }
        };
    }
    if w & 0x10 != 0 {
        if w & 0x20 == 0 {
            // operations on immediates
            row!(0x0000_707F, 0x0000_0013, alu!(Addi));
            row!(0x0000_707F, 0x0000_7013, alu!(Andi));
            row!(0xFE00_707F, 0x0000_1013, shift!(Slli));
            row!(0xFE00_707F, 0x0000_5013, shift!(Srli));
            row!(0x0000_707F, 0x0000_4013, alu!(Xori));
            row!(0xFE00_707F, 0x4000_5013, shift!(Srai));
            row!(0x0000_707F, 0x0000_3013, alu!(Sltiu));
            row!(0x0000_707F, 0x0000_6013, alu!(Ori));
            row!(0x0000_707F, 0x0000_2013, alu!(Slti));
            row!(0x0000_007F, 0x0000_0017, upper!(Auipc));
            return None;
        }
        // operations on registers
        row!(0xFE00_707F, 0x0000_0033, op!(Add));
        row!(0xFE00_707F, 0x4000_0033, op!(Sub));
        row!(0x0000_007F, 0x0000_0037, upper!(Lui));
        row!(0xFE00_707F, 0x0000_4033, op!(Xor));
        row!(0xFE00_707F, 0x0000_7033, op!(And));
        row!(0xFE00_707F, 0x0000_6033, op!(Or));
        row!(0xFE00_707F, 0x0000_3033, op!(Sltu));
        row!(0xFE00_707F, 0x0200_0033, op!(Mul));
        row!(0xFE00_707F, 0x0000_1033, op!(Sll));
        row!(0xFE00_707F, 0x0000_5033, op!(Srl));
        row!(0xFE00_707F, 0x4000_5033, op!(Sra));
        row!(0xFE00_707F, 0x0000_2033, op!(Slt));
        row!(0xFE00_707F, 0x0200_1033, op!(Mulh));
        row!(0xFE00_707F, 0x0200_2033, op!(Mulhsu));
        row!(0xFE00_707F, 0x0200_3033, op!(Mulhu));
        row!(0xFE00_707F, 0x0200_4033, op!(Div));
        row!(0xFE00_707F, 0x0200_5033, op!(Divu));
        row!(0xFE00_707F, 0x0200_6033, op!(Rem));
        row!(0xFE00_707F, 0x0200_7033, op!(Remu));
        row!(0xFFFF_FFFF, 0x0000_0073, Some(Instr::Ecall));
        row!(0xFFFF_FFFF, 0x0010_0073, Some(Instr::Ebreak));
        return None;
    }
    if w & 0x40 == 0 {
        if w & 0x20 == 0 {
            // loads
            row!(0x0000_707F, 0x0000_2003, load!(Lw));
            row!(0x0000_707F, 0x0000_4003, load!(Lbu));
            row!(0x0000_707F, 0x0000_5003, load!(Lhu));
            row!(0x0000_707F, 0x0000_000F, Some(Instr::Fence));
            row!(0x0000_707F, 0x0000_1003, load!(Lh));
            row!(0x0000_707F, 0x0000_0003, load!(Lb));
            return None;
        }
        // stores and atomic operations
        row!(0x0000_707F, 0x0000_2023, store!(Sw));
        row!(0x0000_707F, 0x0000_0023, store!(Sb));
        row!(0x0000_707F, 0x0000_1023, store!(Sh));
        row!(0xF9F0_707F, 0x1000_202F, atomic!(LrW));
        row!(0xF800_707F, 0x1800_202F, atomic!(ScW));
        row!(0xF800_707F, 0x0800_202F, atomic!(SwapW));
        row!(0xF800_707F, 0x0000_202F, atomic!(AddW));
        row!(0xF800_707F, 0x2000_202F, atomic!(XorW));
        row!(0xF800_707F, 0x6000_202F, atomic!(AndW));
        row!(0xF800_707F, 0x4000_202F, atomic!(OrW));
        row!(0xF800_707F, 0x8000_202F, atomic!(MinW));
        row!(0xF800_707F, 0xA000_202F, atomic!(MaxW));
        row!(0xF800_707F, 0xC000_202F, atomic!(MinuW));
        row!(0xF800_707F, 0xE000_202F, atomic!(MaxuW));
        return None;
    }
    // branches and jumps
    row!(0x0000_707F, 0x0000_1063, branch!(Bne));
    row!(0x0000_707F, 0x0000_0063, branch!(Beq));
    row!(0x0000_007F, 0x0000_006F, jal!());
    row!(0x0000_707F, 0x0000_4063, branch!(Blt));
    row!(0x0000_707F, 0x0000_6063, branch!(Bltu));
    row!(0x0000_707F, 0x0000_0067, jalr!());
    row!(0x0000_707F, 0x0000_5063, branch!(Bge));
    row!(0x0000_707F, 0x0000_7063, branch!(Bgeu));
    None
}

struct Access;

struct Bank {
    base: u32,
    flags: u32,
    file: u32,
    bytes: Vec<u8>,
}

/// Where the text words lie: `len` bytes from an address on, in one bank.
struct Text {
    bank: usize,
    skipped: u32,
    from: u32,
    len: u32,
}

/// A bank that can be read and written and has no text word; of length 0 where there is none.
#[derive(Clone, Copy, Default)]
struct Window {
    base: u32,
    len: u32,
    bank: usize,
}

/// Banks in ascending order of address; and of those that are windows the last one, which is the stack, and the first one, most
/// often the data segment, in which an access is looked for first.
struct Bus {
    banks: Vec<Bank>,
    text: Text,
    last: Window,
    first: Window,
}

fn word(bytes: &[u8]) -> u32 {
    u32::from_le_bytes([bytes[0], bytes[1], bytes[2], bytes[3]])
}

impl Bus {
    fn of(banks: Vec<Bank>, text: Text) -> Bus {
        let mut bus = Bus { banks, text, last: Window::default(), first: Window::default() };
        for (place, bank) in bus.banks.iter().enumerate() {
            let len = bank.bytes.len() as u32;
            let text = &bus.text;
            if bank.flags & 6 == 6 && (bank.base + len <= text.from || text.from + text.len <= bank.base) {
                bus.last = Window { base: bank.base, len, bank: place };
                if bus.first.len == 0 {
                    bus.first = bus.last;
                }
            }
        }
        bus
    }

    fn text_range(&self) -> WordRange {
        WordRange { from: self.text.from, words: self.text.len / 4 }
    }

    /// The window that has all k bytes.
    #[inline(always)]
    fn window(&self, a: u32, k: u8) -> Option<usize> {
        if a.wrapping_sub(self.last.base) as usize + usize::from(k) <= self.last.len as usize {
            return Some(self.last.bank);
        }
        if a.wrapping_sub(self.first.base) as usize + usize::from(k) <= self.first.len as usize {
            return Some(self.first.bank);
        }
        None
    }

    #[inline(always)]
    fn find(&self, a: u32) -> Option<usize> {
        (0..self.banks.len())
            .rev()
            .find(|&i| (a.wrapping_sub(self.banks[i].base) as usize) < self.banks[i].bytes.len())
    }

    /// The place of the bank that has all k bytes and grants the right.
    #[inline(always)]
    fn find_all(&self, right: u32, a: u32, k: u8) -> Option<usize> {
        (0..self.banks.len()).rev().find(|&i| {
            let bank = &self.banks[i];
            a.wrapping_sub(bank.base) as usize + usize::from(k) <= bank.bytes.len() && bank.flags & right != 0
        })
    }

    #[inline(always)]
    fn load(&self, a: u32, k: u8) -> Result<u32, Access> {
        match self.window(a, k) {
            Some(i) => Ok(self.number(i, a, k)),
            None => self.load_elsewhere(a, k),
        }
    }

    #[inline(never)]
    fn load_elsewhere(&self, a: u32, k: u8) -> Result<u32, Access> {
        match self.find_all(4, a, k) {
            Some(i) => Ok(self.number(i, a, k)),
            None => self.load_across(a, k),
        }
    }

    /// The number of k bytes that a bank has.
    #[inline(always)]
    fn number(&self, i: usize, a: u32, k: u8) -> u32 {
        let bank = &self.banks[i];
        let at = (a - bank.base) as usize;
        let bytes = &bank.bytes[at..at + usize::from(k)];
        match k {
            1 => u32::from(bytes[0]),
            2 => u32::from(u16::from_le_bytes([bytes[0], bytes[1]])),
            _ => word(bytes),
        }
    }

    #[cold]
    #[inline(never)]
    fn load_across(&self, a: u32, k: u8) -> Result<u32, Access> {
        let mut v = 0;
        for j in 0..u32::from(k) {
            let at = a.checked_add(j).ok_or(Access)?;
            let bank = &self.banks[self.find(at).ok_or(Access)?];
            if bank.flags & 4 == 0 {
                return Err(Access);
            }
            v |= u32::from(bank.bytes[(at - bank.base) as usize]) << (8 * j);
        }
        Ok(v)
    }

    #[inline(always)]
    fn store(&mut self, a: u32, k: u8, v: u32) -> Result<(), Access> {
        match self.window(a, k) {
            Some(i) => self.put(i, a, k, v),
            None => return self.store_elsewhere(a, k, v),
        }
        Ok(())
    }

    #[inline(never)]
    fn store_elsewhere(&mut self, a: u32, k: u8, v: u32) -> Result<(), Access> {
        match self.find_all(2, a, k) {
            Some(i) => self.put(i, a, k, v),
            None => return self.store_across(a, k, v),
        }
        Ok(())
    }

    /// The same, but where it would touch a text word nothing changes. Whether it was made.
    #[inline(always)]
    fn store_beside_text(&mut self, a: u32, k: u8, v: u32) -> bool {
        match self.window(a, k) {
            Some(i) => self.put(i, a, k, v),
            None => return self.store_elsewhere_beside_text(a, k, v),
        }
        true
    }

    #[inline(never)]
    fn store_elsewhere_beside_text(&mut self, a: u32, k: u8, v: u32) -> bool {
        !self.touches_text(a, u32::from(k)) && self.store_elsewhere(a, k, v).is_ok()
    }

    pub fn touches_text(&self, a: u32, n: u32) -> bool {
        let from = u64::from(self.text.from);
        let first = u64::from(a);
        from.max(first) < (from + u64::from(self.text.len)).min(first + u64::from(n))
    }

    /// Puts k bytes into a bank that has them.
    #[inline(always)]
    fn put(&mut self, i: usize, a: u32, k: u8, v: u32) {
        let bank = &mut self.banks[i];
        let at = (a - bank.base) as usize;
        match k {
            1 => bank.bytes[at] = v as u8,
            2 => bank.bytes[at..at + 2].copy_from_slice(&(v as u16).to_le_bytes()),
            _ => bank.bytes[at..at + 4].copy_from_slice(&v.to_le_bytes()),
        }
    }

    /// Whether each of n bytes lies in a bank with the right.
    #[inline(never)]
    fn permits(&self, a: u32, n: u32, right: u32) -> bool {
        (0..n).all(|j| {
            a.checked_add(j)
                .and_then(|at| self.find(at))
                .is_some_and(|i| self.banks[i].flags & right != 0)
        })
    }

    /// The longest front of n bytes that lies in one bank.
    fn front(&mut self, a: u32, n: u32) -> &mut [u8] {
        let Some(i) = self.find(a) else {
            return &mut [];
        };
        let bank = &mut self.banks[i];
        let at = (a - bank.base) as usize;
        let len = (bank.bytes.len() - at).min(n as usize);
        &mut bank.bytes[at..at + len]
    }

    #[cold]
    #[inline(never)]
    fn store_across(&mut self, a: u32, k: u8, v: u32) -> Result<(), Access> {
        if !self.permits(a, u32::from(k), 2) {
            return Err(Access);
        }
        for j in 0..u32::from(k) {
            if let Some(i) = self.find(a + j) {
                let bank = &mut self.banks[i];
                let at = (a + j - bank.base) as usize;
                bank.bytes[at] = (v >> (8 * j)) as u8;
            }
        }
        Ok(())
    }

    /// The address is a multiple of 4.
    #[inline(always)]
    fn fetch_aligned(&self, a: u32) -> Option<u32> {
        let distance = a.wrapping_sub(self.text.from);
        if distance >= self.text.len {
            return None;
        }
        let at = self.text.skipped as usize + distance as usize;
        Some(word(&self.banks[self.text.bank].bytes[at..at + 4]))
    }

    #[inline(always)]
    fn fetch(&self, a: u32) -> Option<u32> {
        if a % 4 != 0 {
            return None;
        }
        self.fetch_aligned(a)
    }
}

/// Behind the 32 words stands one that takes what is written to x0.
struct Regs {
    words: [u32; 33],
    reserved: Option<u32>,
}

impl Regs {
    fn new() -> Regs {
        Regs { words: [0; 33], reserved: None }
    }

    #[inline(always)]
    fn get(&self, register: Reg) -> u32 {
        self.words[register.num() as usize]
    }

    #[inline(always)]
    fn set(&mut self, register: Reg, v: u32) {
        self.words[register.num() as usize] = v;
        self.words[0] = 0;
    }

    #[inline(always)]
    fn read(&self, number: u8) -> u32 {
        self.words[usize::from(number)]
    }

    #[inline(always)]
    fn put(&mut self, slot: u8, v: u32) {
        self.words[usize::from(slot)] = v;
    }
}

/// Where a register is written.
#[inline(always)]
fn slot(register: Reg) -> u8 {
    if register.number == 0 { 32 } else { register.number as u8 }
}

#[derive(Clone, Copy, Debug)]
enum FaultKind {
    FetchMisaligned,
    FetchAccess,
    Illegal,
    Break,
    LoadAccess,
    StoreAccess,
}

enum Done {
    Next(u32),
    Call,
    Break,
    Fault(FaultKind, u32),
}

#[inline(always)]
fn less(a: u32, b: u32) -> u32 {
    u32::from(a.cast_signed() < b.cast_signed())
}

#[inline(always)]
fn signed_right_shift(a: u32, b: u32) -> u32 {
    (a.cast_signed() >> (b & 31)).cast_unsigned()
}

#[inline(always)]
fn high_word(product: i64) -> u32 {
    ((product >> 32) as i32).cast_unsigned()
}

#[inline(always)]
fn quotient(a: u32, b: u32) -> u32 {
    if b == 0 {
        return u32::MAX;
    }
    a.cast_signed().wrapping_div(b.cast_signed()).cast_unsigned()
}

#[inline(always)]
fn remainder(a: u32, b: u32) -> u32 {
    if b == 0 {
        return a;
    }
    a.cast_signed().wrapping_rem(b.cast_signed()).cast_unsigned()
}

#[inline(always)]
fn value_of_op(op: RegOp, a: u32, b: u32) -> u32 {
    match op {
        RegOp::Add => a.wrapping_add(b),
        RegOp::Sub => a.wrapping_sub(b),
        RegOp::Sll => a << (b & 31),
        RegOp::Slt => less(a, b),
        RegOp::Sltu => u32::from(a < b),
        RegOp::Xor => a ^ b,
        RegOp::Srl => a >> (b & 31),
        RegOp::Sra => signed_right_shift(a, b),
        RegOp::Or => a | b,
        RegOp::And => a & b,
        RegOp::Mul => a.wrapping_mul(b),
        RegOp::Mulh => high_word(i64::from(a.cast_signed()) * i64::from(b.cast_signed())),
        RegOp::Mulhsu => high_word(i64::from(a.cast_signed()) * i64::from(b)),
        RegOp::Mulhu => (u64::from(a) * u64::from(b) >> 32) as u32,
        RegOp::Div => quotient(a, b),
        RegOp::Divu => if b == 0 { u32::MAX } else { a / b },
        RegOp::Rem => remainder(a, b),
        RegOp::Remu => if b == 0 { a } else { a % b },
    }
}

#[inline(always)]
fn value_of_imm(op: ImmOp, a: u32, b: u32) -> u32 {
    match op {
        ImmOp::Addi => a.wrapping_add(b),
        ImmOp::Slti => less(a, b),
        ImmOp::Sltiu => u32::from(a < b),
        ImmOp::Xori => a ^ b,
        ImmOp::Ori => a | b,
        ImmOp::Andi => a & b,
        ImmOp::Slli => a << (b & 31),
        ImmOp::Srli => a >> (b & 31),
        ImmOp::Srai => signed_right_shift(a, b),
    }
}

#[inline(always)]
fn takes(op: BranchOp, a: u32, b: u32) -> bool {
    match op {
        BranchOp::Beq => a == b,
        BranchOp::Bne => a != b,
        BranchOp::Blt => a.cast_signed() < b.cast_signed(),
        BranchOp::Bge => a.cast_signed() >= b.cast_signed(),
        BranchOp::Bltu => a < b,
        BranchOp::Bgeu => a >= b,
    }
}

#[inline(always)]
fn load(op: LoadOp, a: u32, bus: &Bus) -> Result<u32, Access> {
    match op {
        LoadOp::Lb | LoadOp::Lbu => bus.load(a, 1),
        LoadOp::Lh | LoadOp::Lhu => bus.load(a, 2),
        LoadOp::Lw => bus.load(a, 4),
    }
}

#[inline(always)]
fn store(op: StoreOp, a: u32, v: u32, bus: &mut Bus) -> Result<(), Access> {
    match op {
        StoreOp::Sb => bus.store(a, 1, v),
        StoreOp::Sh => bus.store(a, 2, v),
        StoreOp::Sw => bus.store(a, 4, v),
    }
}

#[inline(always)]
fn value_of_load(op: LoadOp, v: u32) -> u32 {
    match op {
        LoadOp::Lb => sign::<8>(v),
        LoadOp::Lh => sign::<16>(v),
        LoadOp::Lw | LoadOp::Lbu | LoadOp::Lhu => v,
    }
}

fn word_of_atomic(op: AtomicOp, a: u32, b: u32) -> u32 {
    match op {
        AtomicOp::LrW => a,
        AtomicOp::ScW | AtomicOp::SwapW => b,
        AtomicOp::AddW => a.wrapping_add(b),
        AtomicOp::XorW => a ^ b,
        AtomicOp::AndW => a & b,
        AtomicOp::OrW => a | b,
        AtomicOp::MinW => a.cast_signed().min(b.cast_signed()).cast_unsigned(),
        AtomicOp::MaxW => a.cast_signed().max(b.cast_signed()).cast_unsigned(),
        AtomicOp::MinuW => a.min(b),
        AtomicOp::MaxuW => a.max(b),
    }
}

#[inline(never)]
fn atomic(op: AtomicOp, rd: Reg, a: u32, v: u32, regs: &mut Regs, bus: &mut Bus) -> Result<(), FaultKind> {
    match op {
        AtomicOp::LrW => {
            if a % 4 != 0 {
                return Err(FaultKind::LoadAccess);
            }
            let word = bus.load(a, 4).map_err(|_| FaultKind::LoadAccess)?;
            regs.set(rd, word);
            regs.reserved = Some(a);
        }
        AtomicOp::ScW => {
            if a % 4 != 0 || !bus.permits(a, 4, 2) {
                return Err(FaultKind::StoreAccess);
            }
            let failed = regs.reserved != Some(a);
            if !failed {
                bus.store(a, 4, v).map_err(|_| FaultKind::StoreAccess)?;
            }
            regs.set(rd, u32::from(failed));
            regs.reserved = None;
        }
        _ => {
            if a % 4 != 0 {
                return Err(FaultKind::StoreAccess);
            }
            let old = bus.load(a, 4).map_err(|_| FaultKind::StoreAccess)?;
            bus.store(a, 4, word_of_atomic(op, old, v)).map_err(|_| FaultKind::StoreAccess)?;
            regs.set(rd, old);
        }
    }
    Ok(())
}

#[inline(always)]
fn exec(instr: &Instr, pc: u32, regs: &mut Regs, bus: &mut Bus) -> Done {
    let next = pc.wrapping_add(4);
    match *instr {
        Instr::Lui { rd, imm } => {
            regs.set(rd, imm);
            Done::Next(next)
        }
        Instr::Auipc { rd, imm } => {
            regs.set(rd, pc.wrapping_add(imm));
            Done::Next(next)
        }
        Instr::Jal { rd, off } => {
            let target = pc.wrapping_add(off);
            if target % 4 != 0 {
                return Done::Fault(FaultKind::FetchMisaligned, target);
            }
            regs.set(rd, next);
            Done::Next(target)
        }
        Instr::Jalr { rd, rs1, imm } => {
            let target = regs.get(rs1).wrapping_add(imm) & !1;
            if target % 4 != 0 {
                return Done::Fault(FaultKind::FetchMisaligned, target);
            }
            regs.set(rd, next);
            Done::Next(target)
        }
        Instr::Branch { op, rs1, rs2, off } => {
            if !takes(op, regs.get(rs1), regs.get(rs2)) {
                return Done::Next(next);
            }
            let target = pc.wrapping_add(off);
            if target % 4 != 0 {
                return Done::Fault(FaultKind::FetchMisaligned, target);
            }
            Done::Next(target)
        }
        Instr::Load { op, rd, rs1, imm } => {
            let a = regs.get(rs1).wrapping_add(imm);
            let Ok(v) = load(op, a, bus) else {
                return Done::Fault(FaultKind::LoadAccess, a);
            };
            regs.set(rd, value_of_load(op, v));
            Done::Next(next)
        }
        Instr::Store { op, rs1, rs2, imm } => {
            let a = regs.get(rs1).wrapping_add(imm);
            if store(op, a, regs.get(rs2), bus).is_err() {
                return Done::Fault(FaultKind::StoreAccess, a);
            }
            Done::Next(next)
        }
        Instr::Alu { op, rd, rs1, imm } => {
            let v = value_of_imm(op, regs.get(rs1), imm);
            regs.set(rd, v);
            Done::Next(next)
        }
        Instr::Op { op, rd, rs1, rs2 } => {
            let v = value_of_op(op, regs.get(rs1), regs.get(rs2));
            regs.set(rd, v);
            Done::Next(next)
        }
        Instr::Atomic { op, rd, rs1, rs2 } => {
            let a = regs.get(rs1);
            match atomic(op, rd, a, regs.get(rs2), regs, bus) {
                Ok(()) => Done::Next(next),
                Err(kind) => Done::Fault(kind, a),
            }
        }
        Instr::Fence => Done::Next(next),
        Instr::Ecall => Done::Call,
        Instr::Ebreak => Done::Break,
    }
}

enum End {
    Exited(u32),
    Faulted(FaultKind, u32),
}

struct Heap {
    base: u32,
    limit: u32,
    now: u32,
}

struct Flat {
    pc: u32,
    regs: Regs,
    bus: Bus,
    heap: Heap,
    steps: u64,
    ending: Option<End>,
    /// A micro-op for each text word that a step has come to, and behind them one that stops.
    ops: Vec<MicroOp>,
}

impl Flat {
    /// A step that is not made by a micro-op. It may store into the text.
    fn step(&mut self) {
        let instr = self.bus.fetch(self.pc).and_then(decode);
        let stored = instr.as_ref().and_then(|instr| cached::text_store(instr, &self.regs, &self.bus));
        self.step_by(instr);
        match (stored, instr) {
            (Some(_), Some(Instr::Ecall)) => self.ops.fill(stop()),
            (Some(a), _) => {
                let text = self.bus.text_range();
                for k in [a, a + 3].into_iter().filter_map(|a| text.index(a & !3)) {
                    self.ops[k as usize] = stop();
                }
            }
            (None, _) => {}
        }
    }

    fn step_by(&mut self, instr: Option<Instr>) {
        let Some(instr) = instr else {
            let kind = if self.bus.fetch(self.pc).is_some() { FaultKind::Illegal } else { FaultKind::FetchAccess };
            return self.end(End::Faulted(kind, self.pc));
        };
        match exec(&instr, self.pc, &mut self.regs, &mut self.bus) {
            Done::Next(pc) => {
                self.pc = pc;
                self.steps += 1;
            }
            Done::Call => self.call(),
            Done::Break => self.end(End::Faulted(FaultKind::Break, self.pc)),
            Done::Fault(kind, a) => self.end(End::Faulted(kind, a)),
        }
    }

    fn end(&mut self, end: End) {
        self.steps += 1;
        self.ending = Some(end);
    }

    #[inline(never)]
    fn call(&mut self) {
        let [first, second, third, number] = [10, 11, 12, 17].map(|k| self.regs.get(Reg::of(k)));
        let answer = match number {
            63 => self.read(first, second, third),
            64 => self.write(first, second, third),
            93 | 94 => return self.end(End::Exited(first)),
            214 => {
                if (self.heap.base..=self.heap.limit).contains(&first) {
                    self.heap.now = first;
                }
                self.heap.now
            }
            _ => 38u32.wrapping_neg(),
        };
        self.regs.set(Reg::of(10), answer);
        self.pc = self.pc.wrapping_add(4);
        self.steps += 1;
    }

    fn read(&mut self, descriptor: u32, buffer: u32, count: u32) -> u32 {
        if descriptor != 0 {
            return 9u32.wrapping_neg();
        }
        if !self.bus.permits(buffer, count, 2) {
            return 14u32.wrapping_neg();
        }
        let mut done = 0;
        while done < count {
            match io::stdin().read(self.bus.front(buffer + done, count - done)).expect("input that can be read") {
                0 => break,
                got => done += got as u32,
            }
        }
        done
    }

    fn write(&mut self, descriptor: u32, buffer: u32, count: u32) -> u32 {
        if descriptor != 1 && descriptor != 2 {
            return 9u32.wrapping_neg();
        }
        if !self.bus.permits(buffer, count, 4) {
            return 14u32.wrapping_neg();
        }
        let mut done = 0;
        while done < count {
            let bytes = self.bus.front(buffer + done, count - done);
            done += bytes.len() as u32;
            let written = if descriptor == 1 { io::stdout().write_all(bytes) } else { io::stderr().write_all(bytes) };
            written.expect("a stream that can be written");
        }
        count
    }

    /// Steps by micro-ops up to the limit, or to the first that none makes. The index of a text word is the control of this loop.
    #[inline(never)]
    fn advance(&mut self, limit: u64) {
        let text = self.bus.text_range();
        let Some(first) = text.index(self.pc) else { return };
        let mut k = first as usize;
        let mut left = limit - self.steps;
        while left > 0 {
            let m = &self.ops[k];
            k = match step(m, &text, k, &mut self.regs, &mut self.bus) {
                Some(next) => next,
                None => match self.step_anew(&text, k as u32) {
                    Some(next) => next,
                    None => break,
                },
            };
            left -= 1;
        }
        self.pc = text.address(k as u32);
        self.steps = limit - left;
    }

    /// A step at a word that has no micro-op yet.
    #[inline(never)]
    fn step_anew(&mut self, text: &WordRange, k: u32) -> Option<usize> {
        let word = self.bus.fetch(text.address(k)).filter(|_| k < text.words)?;
        let m = micro_op(word, text, k);
        self.ops[k as usize] = m;
        step(&m, text, k as usize, &mut self.regs, &mut self.bus)
    }

    fn run(&mut self, limit: u64) {
        while self.steps < limit && self.ending.is_none() {
            self.advance(limit);
            if self.steps < limit {
                self.step();
            }
        }
    }
}

fn word_at(file: &[u8], at: usize) -> u32 {
    u32::from_le_bytes([file[at], file[at + 1], file[at + 2], file[at + 3]])
}

fn half_at(file: &[u8], at: usize) -> usize {
    usize::from(u16::from_le_bytes([file[at], file[at + 1]]))
}

fn machine_of(file: &[u8]) -> Flat {
    let table = word_at(file, 28) as usize;
    let mut banks = Vec::new();
    for k in 0..half_at(file, 44) {
        let at = table + 32 * k;
        let [kind, offset, base, _, held, size, flags] = [0, 1, 2, 3, 4, 5, 6].map(|i| word_at(file, at + 4 * i));
        if kind == 1 && size != 0 {
            let mut bytes = file[offset as usize..(offset + held) as usize].to_vec();
            bytes.resize(size as usize, 0);
            banks.push(Bank { base, flags: flags & 7, file: held, bytes });
        }
    }
    let heap = banks.iter().map(|bank| bank.base + bank.bytes.len() as u32).max().unwrap_or(0);
    let stack = (heap + (1 << 20)).next_multiple_of(4096) + 4096;
    banks.push(Bank { base: heap, flags: 6, file: 0, bytes: vec![0; 1 << 20] });
    banks.push(Bank { base: stack, flags: 6, file: 0, bytes: vec![0; 1 << 16] });
    banks.sort_by_key(|bank| bank.base);
    let text = banks
        .iter()
        .position(|bank| bank.flags & 1 != 0)
        .map(|bank| {
            let skipped = banks[bank].base.next_multiple_of(4) - banks[bank].base;
            let len = banks[bank].file.saturating_sub(skipped) / 4 * 4;
            Text { bank, skipped, from: banks[bank].base + skipped, len }
        })
        .unwrap_or(Text { bank: 0, skipped: 0, from: 0, len: 0 });
    let mut regs = Regs::new();
    regs.set(Reg::of(2), (stack + (1 << 16) - 64) / 16 * 16);
    let heap = Heap { base: heap, limit: heap + (1 << 20), now: heap };
    let ops = vec![stop(); text.len as usize / 4 + 1];
    Flat { pc: word_at(file, 24), regs, bus: Bus::of(banks, text), heap, steps: 0, ending: None, ops }
}

fn main() {
    let path = env::args().nth(1).expect("a file");
    let mut flat = machine_of(&fs::read(path).expect("a file that can be read"));
    let numbers: Vec<u32> = env::args().skip(2).map(|word| word.parse().expect("a number")).collect();
    match numbers[..] {
        [bytes, words] => flat = cached::run(flat, bytes, words, 1_000_000_000),
        _ => flat.run(1_000_000_000),
    }
    match flat.ending {
        Some(End::Exited(code)) => process::exit((code & 255) as i32),
        Some(End::Faulted(kind, a)) => {
            eprintln!("faulted: {kind:?} at {a:08x}, pc {:08x}, {} steps", flat.pc, flat.steps);
            process::exit(241);
        }
        None => {
            eprintln!("spent: {} steps, pc {:08x}", flat.steps, flat.pc);
            process::exit(240);
        }
    }
}
