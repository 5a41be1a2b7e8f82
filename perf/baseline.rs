//! A plain simulator of the Basic Computer, written by hand with nothing proved: what the benches are timed against.
//!
//! usage: baseline cycles|clocks IMAGE FROM COUNT [INPUT [WAIT]]
//!
//! Runs the memory image from an address for so many cycles or clocks, or until it halts, and prints the registers, what was
//! printed, and the counts, in the words of sessions. How long it took goes to standard error.
use std::time::Instant;

trait Memory {
    fn fetch(&self, address: u16) -> u16;
    fn store(&mut self, address: u16, word: u16);
}

struct Words(Vec<u16>);

impl Memory for Words {
    fn fetch(&self, address: u16) -> u16 {
        self.0[address as usize]
    }
    fn store(&mut self, address: u16, word: u16) {
        self.0[address as usize] = word;
    }
}

trait Line {
    /// A character or none, and whether OUTR was printed.
    fn beat(&mut self, fgi: bool, fgo: bool, outr: u8) -> (Option<u8>, bool);
}

struct Script {
    input: Vec<u8>,
    next: usize,
    wait: u16,
    count: u16,
    printed: Vec<u8>,
    room: usize,
}

impl Line for Script {
    fn beat(&mut self, fgi: bool, fgo: bool, outr: u8) -> (Option<u8>, bool) {
        self.count = self.count.saturating_add(1);
        let mut character = None;
        if !fgi && self.next < self.input.len() && self.count >= self.wait {
            character = Some(self.input[self.next]);
            self.next += 1;
            self.count = 0;
        }
        let printed = !fgo && self.printed.len() < self.room;
        if printed {
            self.printed.push(outr);
        }
        (character, printed)
    }
}

#[derive(Default)]
struct Port {
    inpr: u8,
    outr: u8,
    fgi: bool,
    fgo: bool,
}

impl Port {
    fn beat<L: Line>(&mut self, line: &mut L) {
        let (character, printed) = line.beat(self.fgi, self.fgo, self.outr);
        if let Some(character) = character {
            self.inpr = character;
            self.fgi = true;
        }
        if printed {
            self.fgo = true;
        }
    }
}

fn right(e: bool, ac: u16) -> u16 {
    (e as u16) << 15 | ac >> 1
}

fn left(e: bool, ac: u16) -> u16 {
    ac << 1 | e as u16
}

/// What the marks of a register-reference word make of AC, E and the skip.
fn register_marks(ir: u16, ac: u16, e: bool) -> (u16, bool, bool) {
    let has = |bit: u16| ir >> bit & 1 == 1;
    let next_ac = if has(11) {
        0
    } else if ir & 0x2C0 != 0 {
        let mut or = 0;
        if has(9) {
            or |= !ac;
        }
        if has(7) {
            or |= right(e, ac);
        }
        if has(6) {
            or |= left(e, ac);
        }
        or
    } else if has(5) {
        ac.wrapping_add(1)
    } else {
        ac
    };
    let next_e = if has(10) {
        false
    } else if ir & 0x1C0 != 0 {
        has(7) && ac & 1 == 1 || has(6) && ac >> 15 == 1 || has(8) && !e
    } else {
        e
    };
    let skip = has(4) && ac >> 15 == 0 || has(3) && ac >> 15 == 1 || has(2) && ac == 0 || has(1) && !e;
    (next_ac, next_e, skip)
}

fn switch(ien: bool, ir: u16) -> bool {
    match ir >> 6 & 3 {
        0 => ien,
        1 => false,
        2 => true,
        _ => !ien,
    }
}

#[derive(Default)]
struct Cycles {
    ac: u16,
    e: bool,
    pc: u16,
    ien: bool,
    r: bool,
    s: bool,
    port: Port,
}

impl Cycles {
    fn beats<L: Line>(&mut self, line: &mut L, n: u32) {
        for _ in 0..n {
            self.port.beat(line);
        }
    }

    fn cycle<M: Memory, L: Line>(&mut self, memory: &mut M, line: &mut L) -> u32 {
        if self.r {
            self.beats(line, 2);
            memory.store(0, self.pc);
            self.pc = 1;
            self.ien = false;
            self.r = false;
            self.port.beat(line);
            return 3;
        }
        let word = memory.fetch(self.pc);
        let opcode = word >> 12 & 7;
        let k = [6, 6, 6, 5, 5, 6, 7, 4][opcode as usize];
        self.beats(line, k - 1);
        self.r = self.ien && (self.port.fgi || self.port.fgo);
        self.pc = self.pc + 1 & 0xFFF;
        if opcode == 7 {
            if word >> 15 == 0 {
                let (ac, e, skip) = register_marks(word, self.ac, self.e);
                self.ac = ac;
                self.e = e;
                if skip {
                    self.pc = self.pc + 1 & 0xFFF;
                }
                if word & 1 == 1 {
                    self.s = false;
                }
            } else {
                if word & 0x200 != 0 && self.port.fgi || word & 0x100 != 0 && self.port.fgo {
                    self.pc = self.pc + 1 & 0xFFF;
                }
                if word & 0x400 != 0 {
                    self.port.outr = self.ac as u8;
                    self.port.fgo = false;
                }
                if word & 0x800 != 0 {
                    self.ac = self.ac & 0xFF00 | self.port.inpr as u16;
                    self.port.fgi = false;
                }
                self.ien = switch(self.ien, word);
            }
        } else {
            let mut m = word & 0xFFF;
            if word >> 15 == 1 {
                m = memory.fetch(m) & 0xFFF;
            }
            match opcode {
                0 => self.ac &= memory.fetch(m),
                1 => {
                    let (sum, carry) = self.ac.overflowing_add(memory.fetch(m));
                    self.ac = sum;
                    self.e = carry;
                }
                2 => self.ac = memory.fetch(m),
                3 => memory.store(m, self.ac),
                4 => self.pc = m,
                5 => {
                    memory.store(m, self.pc);
                    self.pc = m + 1 & 0xFFF;
                }
                _ => {
                    let word = memory.fetch(m).wrapping_add(1);
                    memory.store(m, word);
                    if word == 0 {
                        self.pc = self.pc + 1 & 0xFFF;
                    }
                }
            }
        }
        self.port.beat(line);
        k
    }
}

#[derive(Default)]
struct Clocks {
    ar: u16,
    pc: u16,
    dr: u16,
    ac: u16,
    ir: u16,
    tr: u16,
    sc: u8,
    e: bool,
    i: bool,
    r: bool,
    s: bool,
    ien: bool,
    port: Port,
}

impl Clocks {
    fn request(&mut self) {
        if self.ien && (self.port.fgi || self.port.fgo) {
            self.r = true;
        }
    }

    fn marks(&mut self) {
        let ir = self.ir;
        if !self.i {
            let (ac, e, skip) = register_marks(ir, self.ac, self.e);
            self.ac = ac;
            self.e = e;
            if skip {
                self.pc = self.pc + 1 & 0xFFF;
            }
            if ir & 1 == 1 {
                self.s = false;
            }
        } else {
            if ir & 0x200 != 0 && self.port.fgi || ir & 0x100 != 0 && self.port.fgo {
                self.pc = self.pc + 1 & 0xFFF;
            }
            if ir & 0x400 != 0 {
                self.port.outr = self.ac as u8;
                self.port.fgo = false;
            }
            if ir & 0x800 != 0 {
                self.ac = self.ac & 0xFF00 | self.port.inpr as u16;
                self.port.fgi = false;
            }
            self.ien = switch(self.ien, ir);
        }
    }

    fn transfers<M: Memory>(&mut self, memory: &mut M) -> bool {
        let opcode = self.ir >> 12 & 7;
        match (self.sc, self.r) {
            (0, false) => self.ar = self.pc,
            (0, true) => {
                self.ar = 0;
                self.tr = self.pc;
            }
            (1, false) => {
                self.ir = memory.fetch(self.ar);
                self.pc = self.pc + 1 & 0xFFF;
            }
            (1, true) => {
                memory.store(self.ar, self.tr);
                self.pc = 0;
            }
            (2, false) => {
                self.ar = self.ir & 0xFFF;
                self.i = self.ir >> 15 == 1;
            }
            (2, true) => {
                self.pc += 1;
                self.ien = false;
                self.r = false;
                return true;
            }
            (3, _) => {
                let raise = self.ien && (self.port.fgi || self.port.fgo);
                let marked = opcode == 7;
                if marked {
                    self.marks();
                } else if self.i {
                    self.ar = memory.fetch(self.ar) & 0xFFF;
                }
                if raise {
                    self.r = true;
                }
                return marked;
            }
            (4, _) => {
                self.request();
                match opcode {
                    3 => {
                        memory.store(self.ar, self.ac);
                        return true;
                    }
                    4 => {
                        self.pc = self.ar;
                        return true;
                    }
                    5 => {
                        memory.store(self.ar, self.pc);
                        self.ar = self.ar + 1 & 0xFFF;
                    }
                    _ => self.dr = memory.fetch(self.ar),
                }
            }
            (5, _) => {
                self.request();
                match opcode {
                    0 => self.ac &= self.dr,
                    1 => {
                        let (sum, carry) = self.ac.overflowing_add(self.dr);
                        self.ac = sum;
                        self.e = carry;
                    }
                    2 => self.ac = self.dr,
                    5 => self.pc = self.ar,
                    _ => {
                        self.dr = self.dr.wrapping_add(1);
                        return false;
                    }
                }
                return true;
            }
            _ => {
                self.request();
                memory.store(self.ar, self.dr);
                if self.dr == 0 {
                    self.pc = self.pc + 1 & 0xFFF;
                }
                return true;
            }
        }
        false
    }

    fn clock<M: Memory, L: Line>(&mut self, memory: &mut M, line: &mut L) -> u32 {
        let time = self.sc;
        let ended = self.transfers(memory);
        self.sc = if ended { 0 } else { time + 1 };
        self.port.beat(line);
        if ended { time as u32 + 1 } else { 0 }
    }
}

struct Told {
    pc: u16,
    ac: u16,
    flags: [bool; 6],
    inpr: u8,
    outr: u8,
    counts: [u64; 3],
}

fn tell(told: Told, line: &Script) {
    println!("PC {:03X}\nAC {:04X}", told.pc, told.ac);
    for (name, up) in ["E", "IEN", "R", "S", "FGI", "FGO"].iter().zip(told.flags) {
        println!("{name} {}", up as u8);
    }
    println!("INPR {:02X}\nOUTR {:02X}", told.inpr, told.outr);
    println!("printed {}", String::from_utf8_lossy(&line.printed));
    let [cycles, clocks, interrupts] = told.counts;
    println!("cycles {cycles}\nclocks {clocks}\ninterrupts {interrupts}");
}

fn by_cycles(memory: &mut Words, line: &mut Script, from: u16, count: u64) -> Told {
    let mut c = Cycles { pc: from, s: true, port: Port { fgo: true, ..Port::default() }, ..Cycles::default() };
    let [mut cycles, mut clocks, mut interrupts] = [0u64; 3];
    while c.s && cycles < count {
        let k = c.cycle(memory, line);
        cycles += 1;
        clocks += k as u64;
        interrupts += (k == 3) as u64;
    }
    Told {
        pc: c.pc,
        ac: c.ac,
        flags: [c.e, c.ien, c.r, c.s, c.port.fgi, c.port.fgo],
        inpr: c.port.inpr,
        outr: c.port.outr,
        counts: [cycles, clocks, interrupts],
    }
}

fn by_clocks(memory: &mut Words, line: &mut Script, from: u16, count: u64) -> Told {
    let mut c = Clocks { pc: from, s: true, port: Port { fgo: true, ..Port::default() }, ..Clocks::default() };
    let [mut cycles, mut clocks, mut interrupts] = [0u64; 3];
    while c.s && clocks < count {
        let k = c.clock(memory, line);
        clocks += 1;
        cycles += (k > 0) as u64;
        interrupts += (k == 3) as u64;
    }
    Told {
        pc: c.pc,
        ac: c.ac,
        flags: [c.e, c.ien, c.r, c.s, c.port.fgi, c.port.fgo],
        inpr: c.port.inpr,
        outr: c.port.outr,
        counts: [cycles, clocks, interrupts],
    }
}

fn main() {
    let args: Vec<String> = std::env::args().collect();
    let bytes = std::fs::read(&args[2]).expect("an image");
    let mut memory = Words(bytes.chunks(2).map(|b| u16::from_be_bytes([b[0], b[1]])).collect());
    let from = u16::from_str_radix(&args[3], 16).expect("an address");
    let count: u64 = args[4].parse().expect("a count");
    let input = args.get(5).map(|t| t.as_bytes().to_vec()).unwrap_or_default();
    let wait = args.get(6).map(|t| t.parse().expect("a wait")).unwrap_or(0);
    let mut line = Script { input, next: 0, wait, count: 0, printed: Vec::with_capacity(4096), room: 4096 };
    let started = Instant::now();
    let told = match args[1].as_str() {
        "cycles" => by_cycles(&mut memory, &mut line, from, count),
        _ => by_clocks(&mut memory, &mut line, from, count),
    };
    eprintln!("{} ms", started.elapsed().as_millis());
    tell(told, &line);
}
