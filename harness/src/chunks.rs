//! Chunks, written node by node (each node before its children), and a generator of numbers with a seed.

/// xorshift64*: the same numbers for the same seed, everywhere.
#[derive(Clone)]
pub struct Rng(u64);

impl Rng {
    pub fn new(seed: u64) -> Rng {
        // splitmix64 spreads small seeds
        let mut z = seed.wrapping_add(0x9e37_79b9_7f4a_7c15);
        z = (z ^ (z >> 30)).wrapping_mul(0xbf58_476d_1ce4_e5b9);
        z = (z ^ (z >> 27)).wrapping_mul(0x94d0_49bb_1331_11eb);
        Rng((z ^ (z >> 31)) | 1)
    }
    pub fn next(&mut self) -> u64 {
        self.0 ^= self.0 >> 12;
        self.0 ^= self.0 << 25;
        self.0 ^= self.0 >> 27;
        self.0.wrapping_mul(0x2545_f491_4f6c_dd1d)
    }
    /// Below n.
    pub fn below(&mut self, n: usize) -> usize { ((self.next() >> 33) as usize) % n }
    /// From a to b, both included.
    pub fn between(&mut self, a: usize, b: usize) -> usize { a + self.below(b - a + 1) }
    /// True once in n.
    pub fn one_in(&mut self, n: usize) -> bool { self.below(n) == 0 }
}

pub const ADD: u8 = 0;
pub const POW: u8 = 5;
pub const LT: u8 = 7;
pub const EQ: u8 = 11;
pub const AND: u8 = 13;
pub const OR: u8 = 14;
pub const NEG: u8 = 0;
pub const NOT: u8 = 1;

/// A chunk on its way. `lines`: one node in so many gets a line of its own, 0 for none.
pub struct Writer { pub bytes: Vec<u8>, pub nodes: usize, lines: usize, rng: Rng }

impl Writer {
    pub fn new(locals: &[&[u8]], varargs: bool, formulas: u8) -> Writer {
        let mut w = Writer { bytes: vec![u8::from(!locals.is_empty()) | u8::from(varargs) << 1], nodes: 0, lines: 0, rng: Rng::new(0) };
        if !locals.is_empty() {
            w.bytes.push(locals.len() as u8);
            for n in locals { w.text(n); }
        }
        w.bytes.push(formulas);
        w
    }
    pub fn with_lines(mut self, one_in: usize, seed: u64) -> Writer { self.lines = one_in; self.rng = Rng::new(seed); self }
    fn text(&mut self, t: &[u8]) {
        self.bytes.extend_from_slice(&(t.len() as u16).to_le_bytes());
        self.bytes.extend_from_slice(t);
    }
    fn node(&mut self, kind: u8, map: u8) {
        self.nodes += 1;
        self.bytes.push(kind);
        if self.lines > 0 && self.rng.one_in(self.lines) {
            self.bytes.push(map | 1);
            let line = if self.rng.one_in(20) { self.rng.next() as u32 } else { self.rng.below(100) as u32 };
            self.bytes.extend_from_slice(&line.to_le_bytes());
        } else {
            self.bytes.push(map);
        }
    }
    pub fn nil(&mut self) { self.node(0, 0) }
    pub fn truth(&mut self, t: bool) { self.node(if t { 1 } else { 2 }, 0) }
    pub fn number(&mut self, bits: u64) { self.node(3, 2); self.bytes.extend_from_slice(&bits.to_le_bytes()) }
    pub fn double(&mut self, x: f64) { self.number(x.to_bits()) }
    pub fn string(&mut self, t: &[u8]) { self.node(4, 4); self.text(t) }
    pub fn vararg(&mut self) { self.node(5, 0) }
    pub fn name(&mut self, t: &[u8]) { self.node(6, 4); self.text(t) }
    pub fn binary(&mut self, op: u8) { self.node(7, 8); self.bytes.push(op) }
    pub fn unary(&mut self, op: u8) { self.node(8, 8); self.bytes.push(op) }
    pub fn index(&mut self) { self.node(9, 0) }
    pub fn field(&mut self, t: &[u8]) { self.node(10, 4); self.text(t) }
    pub fn method(&mut self, t: &[u8], args: u8) { self.node(11, 20); self.text(t); self.bytes.push(args) }
    pub fn call(&mut self, args: u8) { self.node(12, 16); self.bytes.push(args) }
    pub fn paren(&mut self) { self.node(13, 0) }
}

pub fn hex(b: &[u8]) -> String { b.iter().map(|x| format!("{x:02x}")).collect() }
