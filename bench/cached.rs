//! The cached machine of this repository written in plain Rust, in the same form: words, links and jumps to placed blocks stand
//! in a loop of their own, by micro-ops that the ram keeps beside its words, and any other word leaves it. `bench/run` measures
//! the proved one against it.

use crate::micro::{Class, KnownWords, MicroOp, class_of_code, held};
use crate::*;

const EBREAK: u32 = 0x0010_0073;

fn lui(rd: Reg, value: u32) -> u32 {
    (value.wrapping_add(2048) & 0xFFFF_F000) | rd.num() << 7 | 0x37
}

fn addi(rd: Reg, value: u32) -> u32 {
    value << 20 | rd.num() << 15 | rd.num() << 7 | 0x13
}

/// The words that stand for a text word, and whether control can go on behind it.
fn render(word: u32, a: u32) -> (Vec<u32>, bool) {
    match decode(word) {
        Some(Instr::Auipc { rd, imm }) => {
            let value = a.wrapping_add(imm);
            (vec![lui(rd, value), addi(rd, value)], true)
        }
        Some(Instr::Jal { rd, off }) => {
            let target = a.wrapping_add(off);
            if rd.num() == 0 || target % 4 != 0 {
                return (vec![EBREAK, target], false);
            }
            let link = a.wrapping_add(4);
            (vec![lui(rd, link), addi(rd, link), EBREAK, target], false)
        }
        Some(Instr::Branch { off, .. }) => {
            let opposite_over_exit = (word ^ 0x1000) & 0x01FF_F07F | 12 << 7;
            (vec![opposite_over_exit, EBREAK, a.wrapping_add(off)], true)
        }
        Some(Instr::Jalr { .. }) => (vec![EBREAK, word, a.wrapping_add(4)], false),
        Some(Instr::Ebreak) | None => (vec![EBREAK, a.wrapping_add(1)], false),
        Some(_) => (vec![word], true),
    }
}

/// The blocks of a text: the first text word of each, where its words end, and the offset of each text word in its block.
struct Image {
    base: u32,
    starts: Vec<u32>,
    ends: Vec<u32>,
    places: Vec<(u32, u32)>,
    words: Vec<u32>,
}

impl Image {
    fn cut(bus: &Bus, most: u32) -> Image {
        let base = bus.text.from;
        let mut image = Image { base, starts: vec![0], ends: vec![], places: vec![], words: vec![] };
        let mut begin = 0;
        let mut fell = false;
        for k in 0..bus.text.len / 4 {
            let a = base + 4 * k;
            let (words, falls) = render(bus.fetch(a).expect("a text word"), a);
            let used = image.words.len() - begin;
            if used + words.len() + if falls { 2 } else { 0 } > most as usize {
                image.end_block(a, fell);
                image.starts.push(k);
                begin = image.words.len();
            }
            image.places.push((image.starts.len() as u32 - 1, (image.words.len() - begin) as u32));
            image.words.extend(words);
            fell = falls;
        }
        image.end_block(base + bus.text.len, fell);
        image
    }

    fn end_block(&mut self, next: u32, falls: bool) {
        if falls {
            self.words.extend([EBREAK, next]);
        }
        self.ends.push(self.words.len() as u32);
    }

    fn begin(&self, block: u32) -> u32 {
        if block == 0 { 0 } else { self.ends[block as usize - 1] }
    }

    fn block(&self, block: u32) -> &[u32] {
        &self.words[self.begin(block) as usize..self.ends[block as usize] as usize]
    }

    fn word(&self, block: u32, offset: u32) -> u32 {
        self.words[(self.begin(block) + offset) as usize]
    }

    /// Block and offset of the text word at an address.
    fn place(&self, a: u32) -> Option<(u32, u32)> {
        let distance = a.wrapping_sub(self.base);
        if distance % 4 != 0 {
            return None;
        }
        self.places.get(distance as usize / 4).copied()
    }
}

/// The ram keeps beside each word the micro-op that was made of it, until the word is set. That of a word that isn't learnt, or is
/// left to who executes instructions, stops and holds the word.
struct Ram {
    words: Vec<u32>,
    ops: Vec<MicroOp>,
    known: KnownWords,
}

impl Ram {
    fn new(words: u32) -> Ram {
        Ram { words: vec![0; words as usize], ops: vec![held(0); words as usize], known: KnownWords::new() }
    }

    #[inline(always)]
    fn fetch(&self, i: u32) -> u32 {
        self.words[i as usize]
    }

    fn set(&mut self, i: u32, w: u32) {
        self.words[i as usize] = w;
        self.ops[i as usize] = held(w);
    }

    /// The micro-op of the word at an index; one that stops where it isn't known.
    #[inline(always)]
    fn op(&self, i: u32) -> &MicroOp {
        &self.ops[i as usize]
    }

    /// The word at an index, where its micro-op holds it.
    #[inline(always)]
    fn held(&self, i: u32) -> Option<u32> {
        self.ops.get(i as usize)?.word()
    }

    /// Learns the micro-op of the word at an index, and those of the words behind it: as far as they are held and follow one
    /// another, up to a jump, a branch, or a word that stops.
    fn learn(&mut self, i: u32, word: u32) {
        let (mut i, mut word) = (i, word);
        while self.learn_one(i, word) {
            i += 1;
            let Some(next) = self.held(i) else { return };
            word = next;
        }
    }

    /// Learns the micro-op of one word. Whether it goes on to the next one alone.
    fn learn_one(&mut self, i: u32, word: u32) -> bool {
        let range = WordRange { from: 0, words: self.words.len() as u32 };
        let (op, goes_on) = self.known.op(word, &range, i);
        self.ops[i as usize] = op;
        goes_on
    }
}

/// The slot of a block that has none.
const NOWHERE: u32 = u32::MAX;

/// The service: the oldest block makes room. Of each slot it keeps the words that are linked to it, and of each of these words
/// the goal, the address to which it leads, so that nothing is looked up where control goes over a link.
struct Rom {
    size: u32,
    next: usize,
    filled: usize,
    blocks: Vec<u32>,
    homes: Vec<u32>,
    into: Vec<Vec<u32>>,
    goals: Vec<u32>,
    services: u64,
}

impl Rom {
    fn new(cache_bytes: u32, size: u32, blocks: usize) -> Rom {
        let slots = (cache_bytes / 4 / size) as usize;
        Rom {
            size,
            next: 0,
            filled: 0,
            blocks: vec![0; slots],
            homes: vec![NOWHERE; blocks],
            into: vec![vec![]; slots],
            goals: vec![0; slots * size as usize],
            services: 0,
        }
    }

    fn find(&self, block: u32) -> Option<u32> {
        Some(self.homes[block as usize]).filter(|&home| home != NOWHERE)
    }

    /// The boot, which comes while nothing is placed, is no service.
    fn count(&mut self) {
        if self.filled > 0 {
            self.services += 1;
        }
    }

    fn make_room(&mut self, ram: &mut Ram) {
        if self.filled < self.blocks.len() {
            return;
        }
        let slot = self.next as u32;
        for i in std::mem::take(&mut self.into[self.next]) {
            if i / self.size != slot {
                ram.set(i, EBREAK);
            }
        }
        for list in &mut self.into {
            list.retain(|&i| i / self.size != slot);
        }
        self.homes[self.blocks[self.next] as usize] = NOWHERE;
    }

    fn arrive(&mut self, image: &Image, ram: &mut Ram, block: u32) -> u32 {
        self.count();
        if let Some(slot) = self.find(block) {
            return slot;
        }
        self.make_room(ram);
        let slot = self.next as u32;
        for (i, &word) in (slot * self.size..).zip(image.block(block)) {
            ram.set(i, word);
        }
        self.homes[block as usize] = slot;
        self.blocks[self.next] = block;
        self.filled = (self.filled + 1).min(self.blocks.len());
        self.next = (self.next + 1) % self.blocks.len();
        slot
    }

    fn enter(&mut self, image: &Image, ram: &mut Ram, target: u32) -> Option<u32> {
        let (block, offset) = image.place(target)?;
        Some(self.arrive(image, ram, block) * self.size + offset)
    }

    /// Enters a block that is placed: the ram is not asked.
    fn revisit(&mut self, image: &Image, target: u32) -> Option<u32> {
        let (block, offset) = image.place(target)?;
        let slot = self.find(block)?;
        self.count();
        Some(slot * self.size + offset)
    }

    fn cross(&mut self, image: &Image, ram: &mut Ram, at: u32, target: u32) -> Option<u32> {
        let (block, offset) = image.place(target)?;
        let own = (at / self.size) as usize;
        let home = self.blocks[own];
        let slot = self.arrive(image, ram, block);
        let index = slot * self.size + offset;
        let distance = 4 * (i64::from(index) - i64::from(at));
        if self.blocks[own] == home && (-(1 << 20)..1 << 20).contains(&distance) {
            ram.set(at, jump(distance as u32));
            self.into[slot as usize].push(at);
            self.goals[at as usize] = target;
        }
        Some(index)
    }

    fn at(&self, i: u32) -> (u32, u32) {
        (self.blocks[(i / self.size) as usize], i % self.size)
    }
}

/// How many targets are kept.
const KEPT: usize = 64;

/// An address, and the index at which it was found.
#[derive(Clone, Copy)]
struct Found {
    target: u32,
    index: u32,
}

/// What is kept before an address was found: no text word stands at an odd one.
const NO_TARGET: Found = Found { target: 1, index: 0 };

/// The addresses to which jumps over registers led last, each with the index at which it stood, kept by the lowest bits of the
/// address above the two that every text word's has alike: so a return that repeats costs no search. What it keeps holds as long as
/// the blocks stand where they stood.
struct Targets {
    found: [Found; KEPT],
    // Nothing was kept since all was forgotten.
    empty: bool,
}

impl Targets {
    fn new() -> Targets {
        Targets { found: [NO_TARGET; KEPT], empty: true }
    }

    /// The index at which an address, a multiple of 4, was found.
    #[inline(always)]
    fn find(&self, a: u32) -> Option<u32> {
        let found = self.found[(a / 4) as usize % KEPT];
        (found.target == a).then_some(found.index)
    }

    /// Keeps the index at which an address was found.
    fn keep(&mut self, a: u32, index: u32) {
        self.empty = false;
        self.found[(a / 4) as usize % KEPT] = Found { target: a, index };
    }

    /// Keeps nothing any more: where blocks may have moved.
    fn forget(&mut self) {
        if !self.empty {
            self.found.fill(NO_TARGET);
            self.empty = true;
        }
    }
}

/// The JAL by an offset that writes no register.
fn jump(off: u32) -> u32 {
    (off >> 20 & 1) << 31 | (off >> 1 & 0x3FF) << 21 | (off >> 11 & 1) << 20 | (off >> 12 & 0xFF) << 12 | 0x6F
}

/// Which word of what stands for an instruction is under control.
#[derive(Clone, Copy, PartialEq, Eq)]
enum Stage {
    Start,
    Low,
    Return,
    Leave,
}

/// Index, block, offset and stage of the word under control.
type At = (u32, u32, u32, Stage);

/// Where control goes from a word.
#[derive(Clone, Copy, PartialEq, Eq)]
enum Next {
    /// To the next word, with which an instruction begins.
    On,
    /// Over the exit behind the word.
    Over,
    /// To the next word, of the same instruction.
    Lead(Stage),
    /// To the exit behind the word.
    Exit,
    /// Over a link.
    Link,
    /// Nowhere: the word was not executed.
    Stop,
}

/// Where steps have come: the word under control with its stage, and the index `end` at which the limit of steps would be reached
/// if each word from here on were an instruction. `behind` and `total` are the pc and the count of machine instructions that would
/// stand there: so a step to the next word changes the index alone.
#[derive(Clone, Copy)]
struct Walk {
    index: u32,
    stage: Stage,
    end: u64,
    behind: u32,
    total: u64,
}

impl Walk {
    /// The steps that are left.
    #[inline(always)]
    fn left(&self) -> u64 {
        self.end - u64::from(self.index)
    }

    #[inline(always)]
    fn pc(&self) -> u32 {
        self.behind.wrapping_sub(4 * self.left() as u32)
    }

    #[inline(always)]
    fn go(&mut self, next: Next) {
        match next {
            Next::On => {
                self.index += 1;
                self.stage = Stage::Start;
            }
            Next::Over => {
                self.index += 3;
                self.stage = Stage::Start;
                self.end += 2;
            }
            Next::Lead(stage) => {
                self.index += 1;
                self.stage = stage;
                self.end += 1;
                self.total += 1;
            }
            Next::Exit => {
                self.index += 1;
                self.stage = Stage::Leave;
                self.end += 1;
                self.total += 1;
            }
            Next::Link | Next::Stop => {}
        }
    }

    /// Goes over a link to a place, which is a step unless the exit only leads on.
    #[inline(always)]
    fn land(&mut self, index: u32, pc: u32, leads_on: bool) {
        let left = self.left() - u64::from(!leads_on);
        self.index = index;
        self.stage = Stage::Start;
        self.end = u64::from(index) + left;
        self.behind = pc.wrapping_add(4 * left as u32);
        self.total += u64::from(leads_on);
    }

    #[inline(always)]
    fn follow(&mut self, rom: &Rom, index: u32) {
        let target = rom.goals[self.index as usize];
        let leads_on = fell(self.stage, self.pc(), target, index == self.index);
        self.land(index, target, leads_on);
    }
}

/// Whether an exit that was left for the target is one behind a block's last text word, by whether control went back to the exit
/// itself.
#[inline(always)]
fn fell(stage: Stage, pc: u32, target: u32, back: bool) -> bool {
    stage == Stage::Start && target == pc && !back
}

#[inline(always)]
fn store_into_text(bus: &Bus, a: u32, n: u32) -> Option<u32> {
    Some(a).filter(|_| bus.touches_text(a, n) && bus.permits(a, n, 2))
}

#[cold]
#[inline(never)]
fn atomic_store(op: AtomicOp, a: u32, regs: &Regs, bus: &Bus) -> Option<u32> {
    let stores = match op {
        AtomicOp::LrW => false,
        AtomicOp::ScW => regs.reserved == Some(a),
        _ => bus.permits(a, 4, 4),
    };
    store_into_text(bus, a, 4).filter(|_| a % 4 == 0 && stores)
}

#[cold]
#[inline(never)]
fn read_store(regs: &Regs, bus: &Bus) -> Option<u32> {
    let [descriptor, buffer, count, number] = [10, 11, 12, 17].map(|k| regs.get(Reg::of(k)));
    store_into_text(bus, buffer, count).filter(|_| number == 63 && descriptor == 0)
}

fn size_of_store(op: StoreOp) -> u32 {
    match op {
        StoreOp::Sb => 1,
        StoreOp::Sh => 2,
        StoreOp::Sw => 4,
    }
}

/// Where the instruction would store into the text, if it would.
#[inline(always)]
pub fn text_store(instr: &Instr, regs: &Regs, bus: &Bus) -> Option<u32> {
    match *instr {
        Instr::Ecall => read_store(regs, bus),
        Instr::Store { op, rs1, imm, .. } => {
            store_into_text(bus, regs.get(rs1).wrapping_add(imm), size_of_store(op))
        }
        Instr::Atomic { op, rs1, .. } => atomic_store(op, regs.get(rs1), regs, bus),
        _ => None,
    }
}

/// The fields of the JALR that a word is: rd, rs1 and the immediate.
#[inline(always)]
fn jalr_fields(w: u32) -> Option<(Reg, Reg, u32)> {
    (w & 0x707F == 0x67).then(|| (Reg::of(w >> 7 & 31), Reg::of(w >> 15 & 31), (w as i32 >> 20) as u32))
}

/// Where a jump over a register finds its target, if the target's block is placed: the service counts the jump then.
#[inline(always)]
fn visit(rom: &mut Rom, image: &Image, targets: &mut Targets, target: u32) -> Option<u32> {
    if let Some(index) = targets.find(target) {
        rom.count();
        return Some(index);
    }
    let index = rom.revisit(image, target)?;
    targets.keep(target, index);
    Some(index)
}

/// Where control goes from a LUI, by the instruction that it begins.
#[inline(never)]
fn upper_role(bus: &Bus, pc: u32, stage: Stage) -> Next {
    if stage != Stage::Start {
        return Next::On;
    }
    match bus.fetch(pc).map(|word| word & 0x7F) {
        Some(0x17) => Next::Lead(Stage::Low),
        Some(0x6F) => Next::Lead(Stage::Return),
        _ => Next::On,
    }
}

/// Executes a word by its micro-op, which goes on at the next word, over an exit or to it. Any other changes nothing.
#[inline(always)]
fn execute(walk: &Walk, m: &MicroOp, regs: &mut Regs, bus: &mut Bus) -> Next {
    macro_rules! operate {
        ($op:ident) => {{
            micro::operate(RegOp::$op, m, regs);
            Next::On
        }};
    }
    macro_rules! on {
        ($done:expr) => {
            if $done { Next::On } else { Next::Stop }
        };
    }
    macro_rules! branch {
        ($op:ident) => {
            if micro::goes(BranchOp::$op, m, regs) && m.imm == walk.index + 3 {
                Next::Over
            } else {
                Next::Exit
            }
        };
    }
    match class_of_code(m.code) {
        Class::Add => {
            micro::operate(RegOp::Add, m, regs);
            if walk.stage == Stage::Return { Next::Lead(Stage::Leave) } else { Next::On }
        }
        Class::Lui => {
            let next = upper_role(bus, walk.pc(), walk.stage);
            regs.put(m.rd, m.imm);
            next
        }
        Class::Sub => operate!(Sub),
        Class::And => operate!(And),
        Class::Or => operate!(Or),
        Class::Xor => operate!(Xor),
        Class::Sll => operate!(Sll),
        Class::Srl => operate!(Srl),
        Class::Sra => operate!(Sra),
        Class::Slt => operate!(Slt),
        Class::Sltu => operate!(Sltu),
        Class::Mul => operate!(Mul),
        Class::MulDiv => {
            micro::multiply(m, regs);
            Next::On
        }
        Class::Lw => on!(micro::read(LoadOp::Lw, m, regs, bus)),
        Class::Lbu => on!(micro::read(LoadOp::Lbu, m, regs, bus)),
        Class::Lhu => on!(micro::read(LoadOp::Lhu, m, regs, bus)),
        Class::Lh => on!(micro::read(LoadOp::Lh, m, regs, bus)),
        Class::Lb => on!(micro::read(LoadOp::Lb, m, regs, bus)),
        Class::Sw => on!(micro::write(4, m, regs, bus)),
        Class::Sb => on!(micro::write(1, m, regs, bus)),
        Class::Sh => on!(micro::write(2, m, regs, bus)),
        Class::Equal => branch!(Beq),
        Class::Less => branch!(Blt),
        Class::Below => branch!(Bltu),
        Class::Jal => Next::Link,
        Class::Jalr | Class::Stop => Next::Stop,
    }
}

/// Where control is; nowhere in the ram where no text word stands.
struct Hart {
    control: Option<At>,
    machine: Flat,
    count: u64,
}

impl Hart {
    #[cold]
    #[inline(never)]
    fn end(&mut self, end: End) {
        self.machine.end(end);
        self.count += 1;
    }

    /// Jumps over a register by the exit at an index, where that is a JALR's whose target's block is placed, as that of a return
    /// mostly is: where the target stands, and the target. At any other exit nothing changes.
    #[inline(never)]
    fn back(&mut self, rom: &mut Rom, image: &Image, ram: &Ram, targets: &mut Targets, at: u32) -> Option<(u32, u32)> {
        let (rd, rs1, imm) = jalr_fields(ram.held(at + 1)?)?;
        let target = self.machine.regs.get(rs1).wrapping_add(imm) & !1;
        if target % 4 != 0 {
            return None;
        }
        let index = visit(rom, image, targets, target)?;
        if rd.num() != 0 {
            let (block, offset) = rom.at(at);
            self.machine.regs.set(rd, image.word(block, offset + 2));
        }
        Some((index, target))
    }

    /// A step at a word by its micro-op, where that is known: where control went. At `Stop` nothing has changed.
    #[inline(always)]
    fn quick(&mut self, rom: &Rom, ram: &Ram, walk: &mut Walk) -> Next {
        let m = ram.op(walk.index);
        let Flat { regs, bus, .. } = &mut self.machine;
        let next = execute(walk, m, regs, bus);
        if next == Next::Link {
            walk.follow(rom, m.imm);
        }
        walk.go(next);
        next
    }

    /// The step of `quick` at a word that is learnt first.
    #[inline(never)]
    fn step_anew(&mut self, rom: &Rom, ram: &mut Ram, word: u32, walk: Walk) -> Option<Walk> {
        ram.learn(walk.index, word);
        let mut walk = walk;
        if self.quick(rom, ram, &mut walk) == Next::Stop {
            return None;
        }
        Some(walk)
    }

    /// Steps up to the limit, or to the first word that is not executed here, which is then fetched. Nothing but words, links
    /// and jumps to placed blocks stands in this loop, so index, pc and counts stay in registers.
    #[inline(never)]
    fn run_block(
        &mut self,
        rom: &mut Rom,
        image: &Image,
        ram: &mut Ram,
        targets: &mut Targets,
        limit: u64,
        at: At,
    ) -> Option<u32> {
        targets.forget();
        let (index, _, _, stage) = at;
        let left = limit - self.machine.steps;
        let mut walk = Walk {
            index,
            stage,
            end: u64::from(index) + left,
            behind: self.machine.pc.wrapping_add(4 * left as u32),
            total: self.count + left,
        };
        let mut stopped = None;
        while u64::from(walk.index) < walk.end {
            let mut word = ram.fetch(walk.index);
            match self.quick(rom, ram, &mut walk) {
                Next::Stop if word == EBREAK => {
                    if let Some((index, target)) = self.back(rom, image, ram, targets, walk.index) {
                        walk.land(index, target, false);
                        continue;
                    }
                }
                Next::Stop => {}
                Next::Exit => {
                    // No limit falls between a branch and the exit behind it, since the branch completes no step.
                    word = ram.fetch(walk.index);
                    let m = ram.op(walk.index);
                    if class_of_code(m.code) == Class::Jal {
                        walk.follow(rom, m.imm);
                        continue;
                    }
                }
                _ => continue,
            }
            if word != EBREAK {
                // Field by field: a copy of the whole would keep what stands between the fields in registers.
                if let Some(Walk { index, stage, end, behind, total }) = self.step_anew(rom, ram, word, walk) {
                    walk = Walk { index, stage, end, behind, total };
                    continue;
                }
            }
            stopped = Some(word);
            break;
        }
        let (block, offset) = rom.at(walk.index);
        self.control = Some((walk.index, block, offset, walk.stage));
        self.machine.pc = walk.pc();
        self.machine.steps = limit - walk.left();
        self.count = walk.total - walk.left();
        stopped
    }

    /// A step at a word that `run_block` left: an exit, or one that completes its instruction.
    fn at_word(&mut self, rom: &mut Rom, image: &Image, ram: &mut Ram, word: u32, at: At) {
        let (index, block, offset, _) = at;
        let Some(instr) = decode(word) else { unreachable!() };
        let Flat { regs, bus, .. } = &mut self.machine;
        if text_store(&instr, regs, bus).is_some() {
            self.machine.ending = Some(End::Exited(242));
            self.count += 1;
            return;
        }
        match exec(&instr, 4 * index, regs, bus) {
            Done::Next(_) => {
                self.machine.pc = self.machine.pc.wrapping_add(4);
                self.machine.steps += 1;
            }
            Done::Call => self.machine.call(),
            Done::Break => return self.exit_step(rom, image, ram, at),
            Done::Fault(kind, address) => return self.end(End::Faulted(kind, address)),
        }
        self.control = Some((index + 1, block, offset + 1, Stage::Start));
        self.count += 1;
    }

    fn exit_step(&mut self, rom: &mut Rom, image: &Image, ram: &mut Ram, at: At) {
        let (_, block, offset, _) = at;
        let descriptor = image.word(block, offset + 1);
        let pc = self.machine.pc;
        match descriptor % 4 {
            0 => self.direct_step(rom, image, ram, at, descriptor),
            1 => {
                let kind = match self.machine.bus.fetch(pc).and_then(decode) {
                    Some(Instr::Ebreak) => FaultKind::Break,
                    _ => FaultKind::Illegal,
                };
                self.end(End::Faulted(kind, pc));
            }
            2 => self.end(End::Faulted(FaultKind::FetchMisaligned, descriptor)),
            _ => self.jalr_step(rom, image, ram, descriptor, image.word(block, offset + 2)),
        }
    }

    fn direct_step(&mut self, rom: &mut Rom, image: &Image, ram: &mut Ram, at: At, target: u32) {
        let (index, _, _, stage) = at;
        let to = rom.cross(image, ram, index, target);
        if !fell(stage, self.machine.pc, target, to == Some(index)) {
            self.machine.pc = target;
            self.machine.steps += 1;
        }
        self.go(rom, to);
    }

    fn jalr_step(&mut self, rom: &mut Rom, image: &Image, ram: &mut Ram, descriptor: u32, link: u32) {
        let Some(Instr::Jalr { rd, rs1, imm }) = decode(descriptor) else { unreachable!() };
        let target = self.machine.regs.get(rs1).wrapping_add(imm) & !1;
        if target % 4 != 0 {
            return self.end(End::Faulted(FaultKind::FetchMisaligned, target));
        }
        let to = rom.enter(image, ram, target);
        self.machine.regs.set(rd, link);
        self.machine.pc = target;
        self.machine.steps += 1;
        self.go(rom, to);
    }

    /// Goes to an index in the ram.
    fn go(&mut self, rom: &Rom, index: Option<u32>) {
        self.control = index.map(|index| {
            let (block, offset) = rom.at(index);
            (index, block, offset, Stage::Start)
        });
        self.count += 1;
    }

    fn run(&mut self, rom: &mut Rom, image: &Image, ram: &mut Ram, limit: u64) {
        let mut targets = Targets::new();
        while self.machine.steps < limit && self.machine.ending.is_none() {
            let Some(at) = self.control else {
                return self.end(End::Faulted(FaultKind::FetchAccess, self.machine.pc));
            };
            if let Some(word) = self.run_block(rom, image, ram, &mut targets, limit, at)
                && let Some(at) = self.control
            {
                self.at_word(rom, image, ram, word, at);
            }
        }
    }
}

/// Runs the machine through a cache of so many bytes.
pub fn run(machine: Flat, cache_bytes: u32, block_words: u32, limit: u64) -> Flat {
    let image = Image::cut(&machine.bus, block_words);
    let mut ram = Ram::new(cache_bytes / 4);
    let mut rom = Rom::new(cache_bytes, block_words, image.starts.len());
    let entry = machine.pc;
    let mut hart = Hart { control: None, machine, count: 0 };
    let index = rom.enter(&image, &mut ram, entry);
    hart.go(&rom, index);
    hart.run(&mut rom, &image, &mut ram, limit);
    if env::var("STATS").is_ok() {
        eprintln!("steps {} instructions {} services {}", hart.machine.steps, hart.count, rom.services);
    }
    hart.machine
}
