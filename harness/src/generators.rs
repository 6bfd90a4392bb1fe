//! Generators of chunks. Each makes its i-th chunk of a round from a seed of its own, so that every run of a round makes the same chunks (too-long: from the one before).
use crate::chunks::{ADD, AND, EQ, LT, NEG, NOT, OR, POW, Rng, Writer};

const ALL: &[u8] = &[0, 1, 2, 3, 4, 5, 6, 7, 8, 9, 10, 11, 12, 13, 14];
const NO_POW: &[u8] = &[0, 1, 2, 3, 4, 6, 7, 8, 9, 10, 11, 12, 13, 14];
/// No and, or, ^: no `TestSet` is made, and nothing but difference 2 (and 4) can be met.
const NO_LOGIC: &[u8] = &[0, 1, 2, 3, 4, 6, 7, 8, 9, 10, 11, 12];
const LOGIC: &[u8] = &[AND, AND, AND, OR, OR, OR, EQ, LT, 9, 12];
const ARITHMETIC: &[u8] = &[0, 1, 2, 3, 4];
const POWERS: &[u8] = &[0, 1, 2, 3, 4, POW, POW, POW];

const NAMES: &[&[u8]] = &[b"a", b"b", b"c", b"x", b"print", b"", b"\xc3\xa4", b"longer_name_of_a_global"];
const DOUBLES: &[u64] = &[
    0, 1 << 63, 0x3ff0_0000_0000_0000, 0x4000_0000_0000_0000, 0xbff0_0000_0000_0000, 0x3fe0_0000_0000_0000, 0x4014_0000_0000_0000, 0xc008_0000_0000_0000, 0x401c_0000_0000_0000, 0x7ff0_0000_0000_0000,
    0xfff0_0000_0000_0000, 0x7ff8_0000_0000_0000, 0x7ff8_0000_0000_0001, 0xfff8_0000_0000_0000, 0x7ff0_0000_0000_0001, 1, 0x000f_ffff_ffff_ffff, 0x7fef_ffff_ffff_ffff, 0x4330_0000_0000_0000, 0x4340_0000_0000_0001, 0x43e0_0000_0000_0000,
];

/// What a random expression is made of. Weights: leaves nil, true, false, number, string, vararg, name; inner binary, unary, index, field, method, call, parentheses.
#[derive(Clone, Copy)]
struct Taste { binary: &'static [u8], unary: &'static [u8], leaves: [usize; 7], inner: [usize; 7], fresh: usize, odd_names: bool }

const MIXED: Taste = Taste { binary: ALL, unary: &[0, 1, 2], leaves: [2, 2, 2, 5, 3, 1, 6], inner: [9, 4, 2, 2, 2, 3, 2], fresh: 8, odd_names: false };
const LOGICAL: Taste = Taste { binary: LOGIC, unary: &[NOT], leaves: [2, 3, 3, 2, 1, 0, 4], inner: [12, 3, 0, 1, 0, 1, 1], fresh: 20, odd_names: false };
const NUMERIC: Taste = Taste { binary: ARITHMETIC, unary: &[NEG], leaves: [0, 0, 0, 12, 0, 0, 1], inner: [8, 2, 0, 0, 0, 0, 1], fresh: 4, odd_names: false };
const POWER: Taste = Taste { binary: POWERS, unary: &[NEG], leaves: [0, 0, 0, 12, 0, 0, 1], inner: [8, 1, 0, 0, 0, 0, 1], fresh: 4, odd_names: false };
const FAR: Taste = Taste { binary: NO_LOGIC, unary: &[0, 1, 2], leaves: [1, 1, 1, 12, 2, 0, 3], inner: [12, 1, 1, 1, 1, 2, 1], fresh: 2, odd_names: false };
const FAR_LOGICAL: Taste = Taste { binary: NO_POW, unary: &[0, 1, 2], leaves: [1, 1, 1, 10, 2, 0, 3], inner: [12, 1, 1, 1, 1, 2, 1], fresh: 2, odd_names: false };
const WIDE: Taste = Taste { binary: NO_POW, unary: &[0, 1, 2], leaves: [2, 2, 2, 3, 2, 4, 4], inner: [8, 2, 1, 1, 2, 5, 2], fresh: 30, odd_names: false };

fn pick(r: &mut Rng, weights: &[usize]) -> usize {
    let mut n = r.below(weights.iter().sum());
    for (i, w) in weights.iter().enumerate() {
        if n < *w { return i; }
        n -= w;
    }
    unreachable!()
}

fn name<'a>(r: &mut Rng, t: &Taste, own: &'a mut Vec<u8>) -> &'a [u8] {
    own.clear();
    if t.odd_names && r.one_in(12) { own.extend_from_slice(&[0xff, 0x41, 0x80][..r.between(1, 3)]) } else { own.extend_from_slice(NAMES[r.below(NAMES.len())]) }
    own
}

fn number(r: &mut Rng, t: &Taste) -> u64 {
    if r.one_in(t.fresh) {
        match r.below(3) { 0 => r.next(), 1 => (r.below(4000) as f64 / 8.0).to_bits(), _ => (-(r.below(50) as f64)).to_bits() }
    } else {
        DOUBLES[r.below(DOUBLES.len())]
    }
}

/// A random expression of at most this nesting; one time in four it ends early.
fn expression(w: &mut Writer, r: &mut Rng, t: &Taste, nesting: usize, varargs: bool) {
    let mut own = Vec::new();
    if nesting <= 1 || r.one_in(4) {
        match pick(r, &t.leaves) {
            0 => w.nil(),
            1 => w.truth(true),
            2 => w.truth(false),
            3 => { let n = number(r, t); w.number(n) }
            4 => match r.below(6) { 0 => w.string(b""), 1 => { let b = r.next().to_le_bytes(); let n = r.below(9); w.string(&b[..n]) } _ => { let n = name(r, t, &mut own); w.string(n) } },
            5 if varargs => w.vararg(),
            _ => { let n = name(r, t, &mut own); w.name(n) }
        }
        return;
    }
    let n = nesting - 1;
    match pick(r, &t.inner) {
        0 => { w.binary(t.binary[r.below(t.binary.len())]); expression(w, r, t, n, varargs); expression(w, r, t, n, varargs) }
        1 => { w.unary(t.unary[r.below(t.unary.len())]); expression(w, r, t, n, varargs) }
        2 => { w.index(); expression(w, r, t, n, varargs); expression(w, r, t, n, varargs) }
        3 => { let f = name(r, t, &mut own); w.field(f); expression(w, r, t, n, varargs) }
        4 => { let a = r.below(4); let m = name(r, t, &mut own); w.method(m, a as u8); for _ in 0..=a { expression(w, r, t, n, varargs) } }
        5 => { let a = r.below(5); w.call(a as u8); for _ in 0..=a { expression(w, r, t, n, varargs) } }
        _ => { w.paren(); expression(w, r, t, n, varargs) }
    }
}

fn locals(r: &mut Rng, t: &Taste, most: usize) -> Vec<Vec<u8>> { let n = r.between(0, most); let mut own = Vec::new(); (0..n).map(|_| name(r, t, &mut own).to_vec()).collect() }

fn whole(r: &mut Rng, t: &Taste, most_locals: usize, formulas: usize, nesting: usize) -> Vec<u8> {
    let names = locals(r, t, most_locals);
    let names: Vec<&[u8]> = names.iter().map(Vec::as_slice).collect();
    let varargs = r.one_in(2);
    let lines = [0, 1, 3][r.below(3)];
    let seed = r.next();
    let mut w = Writer::new(&names, varargs, formulas as u8).with_lines(lines, seed);
    for _ in 0..formulas { expression(&mut w, r, t, nesting, varargs) }
    w.bytes
}

/// So many different constants in a balanced tree: names, strings, and numbers on the right, where they aren't folded.
fn constants(w: &mut Writer, r: &mut Rng, from: usize, to: usize, right: bool) {
    if to - from == 1 {
        match r.below(3) {
            0 if right => w.double(from as f64 + 0.25),
            1 => w.string(format!("s{from}").as_bytes()),
            _ => w.name(format!("k{from}").as_bytes()),
        }
        return;
    }
    w.binary([ADD, 1, 2, 6, LT, EQ][r.below(6)]);
    let mid = (from + to) / 2;
    constants(w, r, from, mid, false);
    constants(w, r, mid, to, true)
}

fn many_constants(r: &mut Rng, t: &Taste) -> Vec<u8> {
    let formulas = r.between(1, 3);
    let (lines, seed) = ([0, 5][r.below(2)], r.next());
    let mut w = Writer::new(&NAMES[..r.below(3)], false, formulas as u8 + 1).with_lines(lines, seed);
    let k = r.between(243, 257);
    constants(&mut w, r, 0, k, false);
    for _ in 0..formulas { expression(&mut w, r, t, 4, false) }
    w.bytes
}

/// Registers almost used up by locals, nils or arguments, and then something that needs more.
fn many_registers(r: &mut Rng, t: &Taste) -> Vec<u8> {
    let held = r.between(238, 250);
    let n = if r.one_in(2) { r.below(201).min(held) } else { 0 };
    let names = vec![b"v".as_slice(); n];
    let formulas = r.between(1, 3);
    let as_arguments = r.one_in(3) && held - n >= 2;
    let fillers = held - n;
    let mut w = Writer::new(&names, true, if as_arguments { 1 } else { (fillers + formulas) as u8 });
    if as_arguments {
        // f(nil, .., nil, E): the function and its arguments hold registers
        w.call(fillers as u8);
        w.name(b"f");
        for _ in 0..fillers - 1 { w.nil() }
        expression(&mut w, r, t, 4, true);
    } else {
        for _ in 0..fillers { w.nil() }
        for _ in 0..formulas { expression(&mut w, r, t, 4, true) }
    }
    w.bytes
}

/// Difference 4: every register but a few is held, then what the Rust drops an error in: open arguments (`set_multret`) or a value with jumps (`exp2val`).
fn dropped_errors(r: &mut Rng) -> Vec<u8> {
    let held = r.between(247, 250);
    let n = if r.one_in(2) { r.below(201) } else { 0 };
    let names = vec![b"v".as_slice(); n];
    let mut w = Writer::new(&names, true, (held - n + 1) as u8);
    for _ in 0..held - n { if r.one_in(8) { w.truth(true) } else { w.nil() } }
    match r.below(4) {
        0 => { let a = r.below(3); w.call(a as u8 + 1); w.name(b"f"); for _ in 0..a { w.name(b"b") } w.vararg() }
        1 => { w.call(1); w.name(b"f"); w.call(0); w.name(b"g") }
        2 => { w.binary([EQ, LT, ADD, 3][r.below(4)]); w.binary(AND); w.truth(true); w.name(NAMES[r.below(4)]); w.number(DOUBLES[r.below(8)]) }
        _ => { w.binary([EQ, LT, ADD, 1][r.below(4)]); w.number(DOUBLES[r.below(8)]); w.binary([AND, OR][r.below(2)]); w.name(NAMES[r.below(4)]); w.name(NAMES[r.below(4)]) }
    }
    w.bytes
}

/// One chain to a nesting near 200, on both sides of it.
fn deep(r: &mut Rng) -> Vec<u8> {
    let nesting = r.between(194, 204);
    let mut w = Writer::new(&[b"a"], true, 1);
    let wide = r.one_in(3);
    let mut right: Vec<Vec<u8>> = Vec::new();
    for _ in 1..nesting {
        match r.below(9) {
            0 => w.paren(),
            1 | 2 => w.unary(r.below(3) as u8),
            3 => w.field(NAMES[r.below(4)]),
            4 if wide => { w.binary(ALL[r.below(15)]); w.name(NAMES[r.below(4)]) }
            5 if wide => { w.call(1); w.name(b"f") }
            n => {
                let mut after = Writer::new(&[], false, 0);
                let args = r.below(3);
                if n == 6 { w.index() } else if n == 7 { w.call(args as u8) } else { w.binary(ALL[r.below(15)]) }
                for _ in 0..(if n == 7 { args } else { 1 }) { if r.one_in(2) { after.name(NAMES[r.below(4)]) } else { after.number(DOUBLES[r.below(8)]) } }
                right.push(after.bytes[2..].to_vec());
            }
        }
    }
    w.name(NAMES[r.below(4)]);
    while let Some(b) = right.pop() { w.bytes.extend_from_slice(&b) }
    w.bytes
}

/// Near 200 locals, on both sides.
fn many_locals(r: &mut Rng) -> Vec<u8> {
    let n = r.between(196, 205);
    let mut bytes = vec![3, n as u8];
    for i in 0..n { let t = format!("v{}", i % 150); bytes.extend_from_slice(&(t.len() as u16).to_le_bytes()); bytes.extend_from_slice(t.as_bytes()) }
    bytes.push(1);
    let mut w = Writer::new(&[], true, 1);
    expression(&mut w, r, &MIXED, 4, true);
    bytes.extend_from_slice(&w.bytes[2..]);
    bytes
}

/// A chunk with one to three faults: bytes changed, lost, added, cut off or put behind.
fn damaged(r: &mut Rng) -> Vec<u8> {
    let formulas = r.between(1, 3);
    let mut b = whole(r, &MIXED, 3, formulas, 5);
    for _ in 0..r.between(1, 3) {
        if b.is_empty() { break; }
        let i = r.below(b.len());
        match r.below(9) {
            0 | 1 => b[i] ^= 1 << r.below(8),
            2 => b[i] = r.next() as u8,
            3 => b[i] = r.below(16) as u8,
            4 => { b.remove(i); }
            5 => b.insert(i, r.below(20) as u8),
            6 => b.truncate(i),
            7 => b.extend_from_slice(&r.next().to_le_bytes()[..r.between(1, 8)]),
            _ => b[0] &= !2,
        }
    }
    b
}

/// Bytes of which most are small, so that they go on being read for a while.
fn noise(r: &mut Rng) -> Vec<u8> {
    let n = r.below(60);
    let mut b: Vec<u8> = (0..n).map(|_| match r.below(4) { 0 => r.below(14) as u8, 1 => 0, 2 => [0, 2, 4, 8, 16, 20][r.below(6)], _ => r.next() as u8 }).collect();
    if n > 1 && r.one_in(2) { b[0] = r.below(4) as u8; }
    b
}

/// Longer than 1,048,576 bytes: what the last one was, with bytes changed. It is refused for its length before they are read.
fn too_long(r: &mut Rng, large: &mut Vec<u8>) {
    let n = large.len();
    for _ in 0..8 { let i = r.below(n); large[i] = r.next() as u8; }
    large.resize(1_048_577 + r.below(3000), 7);
    if r.one_in(2) { large[..2].copy_from_slice(&[0, r.next() as u8]) }
}

/// A tree of n comparisons: 4 words each.
fn comparisons(w: &mut Writer, n: usize) {
    if n == 0 { w.truth(true); return; }
    w.binary(EQ);
    comparisons(w, (n - 1) / 2);
    comparisons(w, n - 1 - (n - 1) / 2)
}

/// Code near 131,071 words: a tree of comparisons, and up to 11 words more.
fn long_code(i: u64) -> Vec<u8> {
    let more = (i % 12) as usize;
    let mut w = Writer::new(&[], false, 1 + more as u8);
    comparisons(&mut w, 32_760 + (i / 12) as usize);
    for _ in 0..more { w.name(b"g") }
    w.bytes
}

/// A tree of and, or with n leaves, nearly balanced: long lists of pending jumps.
fn logic_tree(w: &mut Writer, r: &mut Rng, n: usize) {
    if n > 1 {
        w.binary([AND, OR][r.below(2)]);
        let left = n / 2 + r.below(n / 4 + 1);
        logic_tree(w, r, left.min(n - 1));
        return logic_tree(w, r, n - left.min(n - 1));
    }
    match r.below(6) {
        0 => w.truth(r.one_in(2)),
        1 => { w.unary(NOT); w.name(b"a") }
        2 => { w.binary(LT); w.name(b"a"); w.name(b"b") }
        3 => w.double(1.5),
        _ => w.name(NAMES[r.below(4)]),
    }
}

/// Jumps over long code, long lists of pending jumps, or constants far beyond 256 before the last formulas.
fn long_lists(r: &mut Rng) -> Vec<u8> {
    let mut w = Writer::new(&[], false, 2);
    match r.below(3) {
        0 => {
            w.binary([AND, OR][r.below(2)]);
            w.name(b"a");
            let n = r.between(1, 32_000);
            comparisons(&mut w, n);
        }
        1 => { let n = r.between(2, 20_000); logic_tree(&mut w, r, n) }
        _ => { let k = r.between(258, 3000); constants(&mut w, r, 0, k, false) }
    }
    expression(&mut w, r, &FAR_LOGICAL, 6, false);
    w.bytes
}

/// A chunk of nearly or exactly 1,048,576 bytes: long strings.
fn long_bytes(r: &mut Rng) -> Vec<u8> {
    let total = 1_048_576 - [0, 0, 1, 17][r.below(4)];
    let mut w = Writer::new(&[], false, 17);
    for i in 0..17u8 {
        // the rest is shared out: each string at most 65,535 bytes
        let left = total - w.bytes.len();
        let others = usize::from(16 - i) * 4;
        let n = (left - 4 - others).min(65_535);
        w.string(&vec![b'a' + i; n]);
    }
    w.bytes
}

pub struct Kind { pub name: &'static str, pub chunks: u64, pub about: &'static str }

pub const KINDS: &[Kind] = &[
    Kind { name: "small", chunks: 560_000, about: "all kinds of node and operator, nesting up to 5" },
    Kind { name: "large", chunks: 40_000, about: "the same, nesting up to 8" },
    Kind { name: "logic", chunks: 80_000, about: "and, or, not, comparisons; only difference 1 can be met" },
    Kind { name: "folding", chunks: 60_000, about: "arithmetic of numerals, without ^" },
    Kind { name: "power", chunks: 20_000, about: "arithmetic of numerals with ^; only difference 3 can be met" },
    Kind { name: "constants", chunks: 20_000, about: "some 250 constants, then numerals, no and, or, ^; only difference 2 can be met" },
    Kind { name: "constants-logic", chunks: 8_000, about: "the same with and, or" },
    Kind { name: "registers", chunks: 30_000, about: "238 to 250 registers held, then a random expression" },
    Kind { name: "dropped", chunks: 24_000, about: "247 to 250 registers held, then open arguments or a value with jumps; no ^, few constants" },
    Kind { name: "deep", chunks: 12_000, about: "one chain to nesting 194 to 204" },
    Kind { name: "locals", chunks: 6_000, about: "196 to 205 locals" },
    Kind { name: "names", chunks: 6_000, about: "names, some not UTF-8" },
    Kind { name: "damaged", chunks: 280_000, about: "chunks with one to three faults, cut ones too" },
    Kind { name: "noise", chunks: 40_000, about: "bytes" },
    Kind { name: "too-long", chunks: 1_200, about: "more than 1,048,576 bytes" },
    Kind { name: "long-bytes", chunks: 24, about: "1,048,559 to 1,048,576 bytes" },
    Kind { name: "long-code", chunks: 96, about: "code near 131,071 words" },
    Kind { name: "long-lists", chunks: 800, about: "jumps over up to 128,000 words, and, or of up to 20,000 operands, 258 to 3,000 constants before the last formula" },
];

/// The i-th chunk of a generator in a round, into `b`: each round has seeds of its own (long-code has none, and is the same in every round).
pub fn make(kind: usize, round: u8, i: u64, b: &mut Vec<u8>) {
    let mut r = Rng::new((kind as u64) << 40 | u64::from(round) << 32 | i);
    let r = &mut r;
    let made = match KINDS[kind].name {
        "small" => { let n = if r.one_in(200) { 0 } else { r.between(1, 3) }; whole(r, &MIXED, 4, n, 5) }
        "large" => { let n = r.between(1, 4); whole(r, &MIXED, 4, n, 8) }
        "logic" => { let n = r.between(1, 2); whole(r, &LOGICAL, 3, n, 6) }
        "folding" => whole(r, &NUMERIC, 0, 1, 5),
        "power" => whole(r, &POWER, 0, 1, 4),
        "constants" => many_constants(r, &FAR),
        "constants-logic" => many_constants(r, &FAR_LOGICAL),
        "registers" => many_registers(r, &WIDE),
        "dropped" => dropped_errors(r),
        "deep" => deep(r),
        "locals" => many_locals(r),
        "names" => { let n = r.between(1, 2); whole(r, &Taste { odd_names: true, ..MIXED }, 4, n, 4) }
        "damaged" => damaged(r),
        "noise" => noise(r),
        "too-long" => { if b.len() < 1_048_577 { b.resize(1_048_577, 0) } return too_long(r, b); }
        "long-bytes" => long_bytes(r),
        "long-code" => long_code(i),
        _ => long_lists(r),
    };
    *b = made;
}
