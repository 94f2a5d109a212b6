//! SNOW-V: the paper, section 2, equations 5 to 11, algorithms 1, 2 and 4, and the start values of section 4; document 01, "Round,
//! step and step back" and "Start and trace"; document 02, S-2.

use crate::aes::{round, round_back};
use crate::block::{cells, from_cells, minus, padded, plus, xor, Block};
use crate::lfsr::{clock, clock_back, Register};
use crate::refusal::{require, Refusal};

/// The most blocks of keystream that may be drawn, and the highest count of a state (document 01, refusal 9).
pub const MOST_BLOCKS: u64 = 65_538;

/// What the low half of LFSR-B is loaded with.
#[derive(Clone, Copy, Debug, PartialEq, Eq, Hash)]
pub enum Mode {
    /// Algorithm 1, line 5: zeros.
    Plain,
    /// Equation 12: for use with GHASH.
    Sealed,
}

impl Mode {
    /// Cells b0 to b7 at the start.
    fn low_b(self) -> [u16; 8] {
        match self {
            Mode::Plain => [0; 8],
            Mode::Sealed => [0x6c41, 0x7865, 0x6b45, 0x2064, 0x694a, 0x676e, 0x6854, 0x6d6f],
        }
    }
}

/// A key: k0 to k7 are the cells of `low`, k8 to k15 those of `high`.
#[derive(Clone, Copy, Debug, PartialEq, Eq)]
pub struct Key {
    low: Block,
    high: Block,
}

impl Key {
    /// Refuses 1 unless there are 32 bytes.
    pub fn new(bytes: &[u8]) -> Result<Key, Refusal> {
        require(bytes.len() == 32, Refusal::KeyLength)?;
        Ok(Key { low: padded(&bytes[..16]), high: padded(&bytes[16..]) })
    }
}

/// An IV, document 01's stay number; refuses 2 unless there are 16 bytes.
pub fn iv(bytes: &[u8]) -> Result<Block, Refusal> {
    require(bytes.len() == 16, Refusal::IvLength)?;
    Ok(padded(bytes))
}

/// Document 01's cipher state ("Start and trace"): the contents of A, B, R1, R2 and R3.
#[derive(Clone, Debug, PartialEq, Eq, Hash)]
pub struct Registers {
    /// LFSR-A.
    pub a: Register,
    /// LFSR-B.
    pub b: Register,
    /// Register R1 of the FSM.
    pub r1: Block,
    /// Register R2 of the FSM.
    pub r2: Block,
    /// Register R3 of the FSM.
    pub r3: Block,
}

/// The permutation of equation 11: byte SIGMA[i] moves to position i.
const SIGMA: [usize; 16] = [0, 4, 8, 12, 1, 5, 9, 13, 2, 6, 10, 14, 3, 7, 11, 15];

fn sigma(x: &Block) -> Block {
    std::array::from_fn(|i| x[SIGMA[i]])
}

fn sigma_back(x: &Block) -> Block {
    let mut y = [0; 16];
    for i in 0..16 {
        y[SIGMA[i]] = x[i];
    }
    y
}

impl Registers {
    /// The tap T1, equation 5.
    fn t1(&self) -> Block {
        from_cells(&self.b[8..])
    }

    /// The tap T2, equation 6.
    fn t2(&self) -> Block {
        from_cells(&self.a[..8])
    }

    /// Algorithm 4: equations 8, 9 and 10, all from the old registers.
    fn fsm_update(&mut self) {
        let sum = plus(&self.r2, &xor(&self.r3, &self.t2()));
        self.r3 = round(&self.r2);
        self.r2 = round(&self.r1);
        self.r1 = sigma(&sum);
    }

    /// Algorithm 3: eight clocks.
    fn lfsr_update(&mut self) {
        for _ in 0..8 {
            clock(&mut self.a, &mut self.b);
        }
    }

    /// One pass of the loop of algorithm 2; gives z of equation 7.
    pub fn step(&mut self) -> Block {
        let z = xor(&plus(&self.r1, &self.t1()), &self.r2);
        self.fsm_update();
        self.lfsr_update();
        z
    }

    /// Undoes [`Registers::step`] and gives that step's z (document 01, "Stepping back").
    ///
    /// R3 is found last, since T2 of equation 8 is that of the registers before the eight clocks.
    pub fn step_back(&mut self) -> Block {
        for _ in 0..8 {
            clock_back(&mut self.a, &mut self.b);
        }
        let sum = sigma_back(&self.r1);
        self.r1 = round_back(&self.r2);
        self.r2 = round_back(&self.r3);
        self.r3 = xor(&minus(&sum, &self.r2), &self.t2());
        xor(&plus(&self.r1, &self.t1()), &self.r2)
    }

    /// Algorithm 1, lines 2 to 6, and equation 12.
    pub fn load(key: &Key, iv: &Block, mode: Mode) -> Registers {
        let mut registers = Registers { a: [0; 16], b: [0; 16], r1: [0; 16], r2: [0; 16], r3: [0; 16] };
        registers.a[8..].copy_from_slice(&cells(&key.low));
        registers.a[..8].copy_from_slice(&cells(iv));
        registers.b[8..].copy_from_slice(&cells(&key.high));
        registers.b[..8].copy_from_slice(&mode.low_b());
        registers
    }

    /// Xors a block into a8 to a15, as algorithm 1, line 12, does.
    fn add_to_high_a(&mut self, z: &Block) {
        for (cell, z) in self.a[8..].iter_mut().zip(cells(z)) {
            *cell ^= z;
        }
    }

    /// What algorithm 1, lines 13 and 14, xors into R1 at the end of step `t`, counted from 1.
    fn add_key_to_r1(&mut self, key: &Key, t: u32) {
        match t {
            15 => self.r1 = xor(&self.r1, &key.low),
            16 => self.r1 = xor(&self.r1, &key.high),
            _ => {}
        }
    }

    /// Pass `t` of the loop of algorithm 1; gives its z.
    pub fn start_step(&mut self, key: &Key, t: u32) -> Block {
        let z = self.step();
        self.add_to_high_a(&z);
        self.add_key_to_r1(key, t);
        z
    }

    /// Undoes [`Registers::start_step`].
    ///
    /// The step's z has to be known before the clocks can be undone. Its R1 and R2 follow from R2 and R3 of after, and its T1, the old
    /// b8 to b15, has moved to b0 to b7.
    pub fn start_step_back(&mut self, key: &Key, t: u32) {
        self.add_key_to_r1(key, t);
        let z = xor(&plus(&round_back(&self.r2), &from_cells(&self.b[..8])), &round_back(&self.r3));
        self.add_to_high_a(&z);
        self.step_back();
    }

    /// Algorithm 1 (document 01, "start").
    pub fn start(key: &Key, iv: &Block, mode: Mode) -> Registers {
        let mut registers = Registers::load(key, iv, mode);
        for t in 1..=16 {
            registers.start_step(key, t);
        }
        registers
    }

    /// The IV and mode whose start under the key leads to these registers, if there are any.
    pub fn start_back(mut self, key: &Key) -> Option<(Block, Mode)> {
        for t in (1..=16).rev() {
            self.start_step_back(key, t);
        }
        let iv = from_cells(&self.a[..8]);
        [Mode::Plain, Mode::Sealed].into_iter().find(|mode| self == Registers::load(key, &iv, *mode)).map(|mode| (iv, mode))
    }

    /// The 112 bytes that a suspended block has at 16 to 127 (document 01, "Sessions and parking").
    pub fn to_bytes(&self) -> [u8; 112] {
        let mut bytes = [0; 112];
        for (i, cell) in self.a.iter().chain(&self.b).enumerate() {
            bytes[2 * i..2 * i + 2].copy_from_slice(&cell.to_le_bytes());
        }
        for (i, register) in [self.r1, self.r2, self.r3].iter().enumerate() {
            bytes[64 + 16 * i..80 + 16 * i].copy_from_slice(register);
        }
        bytes
    }

    /// The registers of 112 such bytes.
    pub fn from_bytes(bytes: &[u8; 112]) -> Registers {
        let cell = |i: usize| u16::from_le_bytes([bytes[2 * i], bytes[2 * i + 1]]);
        let register = |i: usize| padded(&bytes[64 + 16 * i..80 + 16 * i]);
        let (a, b) = (std::array::from_fn(cell), std::array::from_fn(|i| cell(16 + i)));
        Registers { a, b, r1: register(0), r2: register(1), r3: register(2) }
    }
}

/// A state that knows how far it has come (document 02, S-2): the registers, and how many blocks lie between them and a start.
#[derive(Clone, Debug, PartialEq, Eq, Hash)]
pub struct State {
    /// The cipher state of document 01.
    pub registers: Registers,
    /// 0 at a start; a step forward adds one, a step back takes one.
    pub count: u64,
}

impl State {
    /// Right behind a start.
    pub fn start(key: &Key, iv: &Block, mode: Mode) -> State {
        State { registers: Registers::start(key, iv, mode), count: 0 }
    }

    /// One block forward. Refuses 9.
    pub fn step(&mut self) -> Result<Block, Refusal> {
        require(self.count < MOST_BLOCKS, Refusal::CountTooHigh)?;
        self.count += 1;
        Ok(self.registers.step())
    }

    /// One block back. Refuses 9, 15.
    pub fn step_back(&mut self) -> Result<Block, Refusal> {
        require(self.count <= MOST_BLOCKS, Refusal::CountTooHigh)?;
        require(self.count > 0, Refusal::BeforeStart)?;
        self.count -= 1;
        Ok(self.registers.step_back())
    }

    /// The registers' 112 bytes, and the count in 8, low byte first.
    pub fn to_bytes(&self) -> [u8; 120] {
        let mut bytes = [0; 120];
        bytes[..112].copy_from_slice(&self.registers.to_bytes());
        bytes[112..].copy_from_slice(&self.count.to_le_bytes());
        bytes
    }

    /// The state of 120 such bytes, whatever its count.
    pub fn from_bytes(bytes: &[u8; 120]) -> State {
        let registers = Registers::from_bytes(bytes[..112].try_into().unwrap());
        State { registers, count: u64::from_le_bytes(bytes[112..].try_into().unwrap()) }
    }
}

/// Where a run goes.
#[derive(Clone, Copy, Debug, PartialEq, Eq)]
pub enum Direction {
    /// By [`State::step`].
    Forward,
    /// By [`State::step_back`].
    Back,
}

/// Refuses what a run of `n` steps refuses whatever its output: 9 for a count or an `n` over the most, and where a step forward would
/// be refused; 15 where a step back would be.
fn require_steps(count: u64, n: u64, direction: Direction) -> Result<(), Refusal> {
    require(count <= MOST_BLOCKS && n <= MOST_BLOCKS, Refusal::CountTooHigh)?;
    match direction {
        Direction::Forward => require(n <= MOST_BLOCKS - count, Refusal::CountTooHigh),
        Direction::Back => require(n <= count, Refusal::BeforeStart),
    }
}

/// Writes the blocks of `n` steps in the order made (document 01: running forward and back). Refuses 9, 15, 4, before it writes or moves.
pub fn run(state: &mut State, n: u64, direction: Direction, out: &mut [u8]) -> Result<(), Refusal> {
    require_steps(state.count, n, direction)?;
    require(out.len() as u64 >= 16 * n, Refusal::ShortOutput)?;
    for block in out.chunks_exact_mut(16).take(n as usize) {
        let z = match direction {
            Direction::Forward => state.step(),
            Direction::Back => state.step_back(),
        };
        block.copy_from_slice(&z?);
    }
    Ok(())
}
