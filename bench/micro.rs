//! Decoded text: a micro-op of eight bytes says all that a step at its word takes, and the control of a loop over micro-ops is the
//! index of a word.

use crate::*;

/// What a micro-op does with rs1 and `b`, the sum of rs2 and the immediate, of which one is 0.
#[derive(Clone, Copy, PartialEq, Eq)]
pub enum Class {
    /// rs1 + b: ADD, ADDI, AUIPC and FENCE.
    Add,
    /// rd is the immediate.
    Lui,
    Sub,
    And,
    Or,
    Xor,
    Sll,
    Srl,
    Sra,
    Slt,
    Sltu,
    Mul,
    /// An operation of the M extension but MUL, whose funct3 is the immediate.
    MulDiv,
    Lw,
    Lbu,
    Lhu,
    Lh,
    Lb,
    Sw,
    Sb,
    Sh,
    /// BEQ and BNE.
    Equal,
    /// BLT and BGE.
    Less,
    /// BLTU and BGEU.
    Below,
    Jal,
    Jalr,
    /// The word is left to who executes instructions.
    Stop,
}

/// The code of a class: a prefix code from the lowest bit on, by Huffman's method over the steps of 21 programs.
fn code(class: Class) -> u8 {
    match class {
        Class::Add => 0b00,
        Class::Lui => 0b0_1111,
        Class::Sub => 0b10_1001,
        Class::And => 0b10_1010,
        Class::Or => 0b01_1001,
        Class::Xor => 0b00_1010,
        Class::Sll => 0b1_1111,
        Class::Srl => 0b1_1010,
        Class::Sra => 0b001_1101,
        Class::Slt => 0b10_0111,
        Class::Sltu => 0b100_1001,
        Class::Mul => 0b0_0010,
        Class::MulDiv => 0b100_0111,
        Class::Lw => 0b011,
        Class::Lbu => 0b0101,
        Class::Lhu => 0b01_0111,
        Class::Lh => 0b101_1101,
        Class::Lb => 0b000_1001,
        Class::Sw => 0b0001,
        Class::Sb => 0b1_0010,
        Class::Sh => 0b111_0111,
        Class::Equal => 0b110,
        Class::Less => 0b11_1101,
        Class::Below => 0b11_1001,
        Class::Jal => 0b0_1101,
        Class::Jalr => 0b000_0111,
        Class::Stop => 0b011_0111,
    }
}

/// The class of a code, by tests of bits: a `match` on the code would be a jump through a table.
#[inline(always)]
pub fn class_of_code(code: u8) -> Class {
    macro_rules! fork {
        ($bit:literal, $clear:expr, $set:expr) => {
            if code >> $bit & 1 == 1 { $set } else { $clear }
        };
    }
    use Class::*;
    fork!(
        0,
        fork!(1, Add, fork!(2, fork!(3, fork!(4, Mul, Sb), fork!(4, fork!(5, Xor, And), Srl)), Equal)),
        fork!(
            1,
            fork!(
                2,
                fork!(3, Sw, fork!(4, fork!(5, fork!(6, Lb, Sltu), Sub), fork!(5, Or, Below))),
                fork!(3, Lbu, fork!(4, Jal, fork!(5, fork!(6, Sra, Lh), Less)))
            ),
            fork!(
                2,
                Lw,
                fork!(
                    3,
                    fork!(4, fork!(5, fork!(6, Jalr, MulDiv), Slt), fork!(5, Lhu, fork!(6, Stop, Sh))),
                    fork!(4, Lui, Sll)
                )
            )
        )
    )
}

/// So many words from an address on.
#[derive(Clone, Copy)]
pub struct WordRange {
    pub from: u32,
    pub words: u32,
}

impl WordRange {
    #[inline(always)]
    pub fn address(&self, k: u32) -> u32 {
        self.from.wrapping_add(4 * k)
    }

    #[inline(always)]
    pub fn index(&self, a: u32) -> Option<u32> {
        let distance = a.wrapping_sub(self.from);
        if distance % 4 != 0 || distance / 4 >= self.words {
            return None;
        }
        Some(distance / 4)
    }
}

#[derive(Clone, Copy)]
pub struct MicroOp {
    pub code: u8,
    /// Where rd is written; for a branch whether it is taken at a comparison that doesn't hold.
    pub rd: u8,
    pub rs1: u8,
    pub rs2: u8,
    pub imm: u32,
}

fn made(class: Class, rd: Reg, rs1: Reg, rs2: Reg, imm: u32) -> MicroOp {
    MicroOp { code: code(class), rd: slot(rd), rs1: rs1.num() as u8, rs2: rs2.num() as u8, imm }
}

pub fn stop() -> MicroOp {
    let zero = Reg::of(0);
    made(Class::Stop, zero, zero, zero, 0)
}

/// The code of one that stops and holds its word: that of Stop, with a bit for which no class asks.
const HELD: u8 = 0b1011_0111;

/// One that stops, and holds the word that it leaves to who executes instructions.
pub fn held(word: u32) -> MicroOp {
    MicroOp { code: HELD, imm: word, ..stop() }
}

impl MicroOp {
    /// The word that it holds.
    #[inline(always)]
    pub fn word(&self) -> Option<u32> {
        (self.code == HELD).then_some(self.imm)
    }
}

fn number(op: RegOp) -> u32 {
    match op {
        RegOp::Mulh => 1,
        RegOp::Mulhsu => 2,
        RegOp::Mulhu => 3,
        RegOp::Div => 4,
        RegOp::Divu => 5,
        RegOp::Rem => 6,
        RegOp::Remu => 7,
        _ => 0,
    }
}

/// The micro-op of the word with index `k` of a range. One that leads out of the range stops.
pub fn micro_op(word: u32, range: &WordRange, k: u32) -> MicroOp {
    let zero = Reg::of(0);
    let pc = range.address(k);
    let Some(instr) = decode(word) else { return stop() };
    match instr {
        Instr::Lui { rd, imm } => made(Class::Lui, rd, zero, zero, imm),
        Instr::Auipc { rd, imm } => made(Class::Add, rd, zero, zero, pc.wrapping_add(imm)),
        Instr::Jal { rd, off } => match range.index(pc.wrapping_add(off)) {
            Some(target) => made(Class::Jal, rd, zero, zero, target),
            None => stop(),
        },
        Instr::Jalr { rd, rs1, imm } => made(Class::Jalr, rd, rs1, zero, imm),
        Instr::Branch { op, rs1, rs2, off } => {
            let Some(target) = range.index(pc.wrapping_add(off)) else { return stop() };
            let (class, turned) = match op {
                BranchOp::Beq => (Class::Equal, 0),
                BranchOp::Bne => (Class::Equal, 1),
                BranchOp::Blt => (Class::Less, 0),
                BranchOp::Bge => (Class::Less, 1),
                BranchOp::Bltu => (Class::Below, 0),
                BranchOp::Bgeu => (Class::Below, 1),
            };
            MicroOp { rd: turned, ..made(class, zero, rs1, rs2, target) }
        }
        Instr::Load { op, rd, rs1, imm } => {
            let class = match op {
                LoadOp::Lb => Class::Lb,
                LoadOp::Lh => Class::Lh,
                LoadOp::Lw => Class::Lw,
                LoadOp::Lbu => Class::Lbu,
                LoadOp::Lhu => Class::Lhu,
            };
            made(class, rd, rs1, zero, imm)
        }
        Instr::Store { op, rs1, rs2, imm } => {
            let class = match op {
                StoreOp::Sb => Class::Sb,
                StoreOp::Sh => Class::Sh,
                StoreOp::Sw => Class::Sw,
            };
            made(class, zero, rs1, rs2, imm)
        }
        Instr::Alu { op, rd, rs1, imm } => {
            let class = match op {
                ImmOp::Addi => Class::Add,
                ImmOp::Slti => Class::Slt,
                ImmOp::Sltiu => Class::Sltu,
                ImmOp::Xori => Class::Xor,
                ImmOp::Ori => Class::Or,
                ImmOp::Andi => Class::And,
                ImmOp::Slli => Class::Sll,
                ImmOp::Srli => Class::Srl,
                ImmOp::Srai => Class::Sra,
            };
            made(class, rd, rs1, zero, imm)
        }
        Instr::Op { op, rd, rs1, rs2 } => {
            let class = match op {
                RegOp::Add => Class::Add,
                RegOp::Sub => Class::Sub,
                RegOp::Sll => Class::Sll,
                RegOp::Slt => Class::Slt,
                RegOp::Sltu => Class::Sltu,
                RegOp::Xor => Class::Xor,
                RegOp::Srl => Class::Srl,
                RegOp::Sra => Class::Sra,
                RegOp::Or => Class::Or,
                RegOp::And => Class::And,
                RegOp::Mul => Class::Mul,
                _ => Class::MulDiv,
            };
            made(class, rd, rs1, rs2, number(op))
        }
        Instr::Fence => made(Class::Add, zero, zero, zero, 0),
        Instr::Atomic { .. } | Instr::Ecall | Instr::Ebreak => stop(),
    }
}

#[inline(never)]
pub fn multiply(m: &MicroOp, regs: &mut Regs) {
    let op = match m.imm {
        1 => RegOp::Mulh,
        2 => RegOp::Mulhsu,
        3 => RegOp::Mulhu,
        4 => RegOp::Div,
        5 => RegOp::Divu,
        6 => RegOp::Rem,
        _ => RegOp::Remu,
    };
    let v = value_of_op(op, regs.read(m.rs1), regs.read(m.rs2));
    regs.put(m.rd, v);
}

#[inline(always)]
pub fn operate(op: RegOp, m: &MicroOp, regs: &mut Regs) {
    let v = value_of_op(op, regs.read(m.rs1), regs.read(m.rs2).wrapping_add(m.imm));
    regs.put(m.rd, v);
}

#[inline(always)]
pub fn goes(op: BranchOp, m: &MicroOp, regs: &Regs) -> bool {
    takes(op, regs.read(m.rs1), regs.read(m.rs2)) != (m.rd == 1)
}

#[inline(always)]
pub fn read(op: LoadOp, m: &MicroOp, regs: &mut Regs, bus: &Bus) -> bool {
    let Ok(v) = load(op, regs.read(m.rs1).wrapping_add(m.imm), bus) else {
        return false;
    };
    regs.put(m.rd, value_of_load(op, v));
    true
}

#[inline(always)]
pub fn write(size: u8, m: &MicroOp, regs: &Regs, bus: &mut Bus) -> bool {
    bus.store_beside_text(regs.read(m.rs1).wrapping_add(m.imm), size, regs.read(m.rs2))
}

/// One step at the word with index `k`: the index of the next one. None, and nothing changed, where it is left to who executes
/// instructions.
#[inline(always)]
pub fn step(m: &MicroOp, range: &WordRange, k: usize, regs: &mut Regs, bus: &mut Bus) -> Option<usize> {
    macro_rules! operate {
        ($op:ident) => {{
            operate(RegOp::$op, m, regs);
            Some(k + 1)
        }};
    }
    macro_rules! branch {
        ($op:ident) => {
            Some(if goes(BranchOp::$op, m, regs) { m.imm as usize } else { k + 1 })
        };
    }
    macro_rules! on {
        ($done:expr) => {
            if $done { Some(k + 1) } else { None }
        };
    }
    match class_of_code(m.code) {
        Class::Add => operate!(Add),
        Class::Lui => {
            regs.put(m.rd, m.imm);
            Some(k + 1)
        }
        Class::Sub => operate!(Sub),
        Class::And => operate!(And),
        Class::Or => operate!(Or),
        Class::Xor => operate!(Xor),
        Class::Sll => operate!(Sll),
        Class::Srl => operate!(Srl),
        Class::Sra => operate!(Sra),
        Class::Slt => operate!(Slt),
        Class::Sltu => operate!(Sltu),
        Class::Mul => operate!(Mul),
        Class::MulDiv => {
            multiply(m, regs);
            Some(k + 1)
        }
        Class::Lw => on!(read(LoadOp::Lw, m, regs, bus)),
        Class::Lbu => on!(read(LoadOp::Lbu, m, regs, bus)),
        Class::Lhu => on!(read(LoadOp::Lhu, m, regs, bus)),
        Class::Lh => on!(read(LoadOp::Lh, m, regs, bus)),
        Class::Lb => on!(read(LoadOp::Lb, m, regs, bus)),
        Class::Sw => on!(write(4, m, regs, bus)),
        Class::Sb => on!(write(1, m, regs, bus)),
        Class::Sh => on!(write(2, m, regs, bus)),
        Class::Equal => branch!(Beq),
        Class::Less => branch!(Blt),
        Class::Below => branch!(Bltu),
        Class::Jal => {
            regs.put(m.rd, range.address(k as u32 + 1));
            Some(m.imm as usize)
        }
        Class::Jalr => {
            let target = range.index(regs.read(m.rs1).wrapping_add(m.imm) & !1)?;
            regs.put(m.rd, range.address(k as u32 + 1));
            Some(target as usize)
        }
        Class::Stop => None,
    }
}

/// How many words are known at most: as many as eight bits tell apart.
const ENTRIES: usize = 256;

/// A word's micro-op before it is placed: the immediate of a branch is the distance of its target in words.
#[derive(Clone, Copy)]
struct RelativeOp {
    op: MicroOp,
    // Whether it goes on to the next word alone. Kept beside it, so that no test of its class is made where a word is learnt again.
    is_straight: bool,
}

impl RelativeOp {
    fn of(op: MicroOp) -> RelativeOp {
        let is_straight = !matches!(
            class_of_code(op.code),
            Class::Equal | Class::Less | Class::Below | Class::Jal | Class::Jalr | Class::Stop
        );
        RelativeOp { op, is_straight }
    }
}

/// A word that is known.
#[derive(Clone, Copy)]
struct Entry {
    word: u32,
    known: RelativeOp,
}

/// The words that were decoded last, each with its micro-op: so that of a word that is copied again and again only the first
/// copy is decoded. Of a branch it keeps the distance. It keeps none of JAL and AUIPC, whose micro-op depends on where the word
/// stands.
pub struct KnownWords {
    entries: [Entry; ENTRIES],
}

/// Which entry is that of a word: the eight highest bits of a product to which every bit of the word comes.
#[inline(always)]
fn place(word: u32) -> usize {
    (word.wrapping_mul(0x9E37_79B1) >> 24) as usize
}

/// The words of all addresses: in it a branch at index 0 leads to its distance.
const ALL_WORDS: WordRange = WordRange { from: 0, words: 1 << 30 };

/// The micro-op of a word before it is placed, or one that holds the word.
fn unplaced(word: u32, range: &WordRange, k: u32) -> MicroOp {
    let op = match word & 0x7F {
        0x63 => micro_op(word, &ALL_WORDS, 0),
        _ => micro_op(word, range, k),
    };
    if class_of_code(op.code) == Class::Stop { held(word) } else { op }
}

/// The micro-op of the word with index `k` of a range, from what it is before it is placed.
#[inline(always)]
fn placed(op: MicroOp, word: u32, range: &WordRange, k: u32) -> MicroOp {
    if !matches!(class_of_code(op.code), Class::Equal | Class::Less | Class::Below) {
        return op;
    }
    let target = k.wrapping_add(op.imm) % ALL_WORDS.words;
    if target < range.words { MicroOp { imm: target, ..op } } else { held(word) }
}

impl KnownWords {
    /// One that knows no word yet but 0, which is no instruction.
    pub fn new() -> KnownWords {
        KnownWords { entries: [Entry { word: 0, known: RelativeOp::of(held(0)) }; ENTRIES] }
    }

    /// The micro-op of the word with index `k` of a range: it is decoded only where it isn't known. One that holds the word where
    /// that stops. And whether it goes on to the next one alone: such a one is placed as it is.
    #[inline(always)]
    pub fn op(&mut self, word: u32, range: &WordRange, k: u32) -> (MicroOp, bool) {
        let entry = &self.entries[place(word)];
        let RelativeOp { op, is_straight } = if entry.word == word { entry.known } else { self.decoded(word, range, k) };
        if is_straight {
            return (op, true);
        }
        (placed(op, word, range, k), false)
    }

    /// The micro-op of a word that isn't known, before it is placed: from now on it is known, unless it is that of JAL or AUIPC.
    #[inline(never)]
    fn decoded(&mut self, word: u32, range: &WordRange, k: u32) -> RelativeOp {
        let known = RelativeOp::of(unplaced(word, range, k));
        if !matches!(word & 0x7F, 0x17 | 0x6F) {
            self.entries[place(word)] = Entry { word, known };
        }
        known
    }
}
