//! Time per node: ours (the whole call, clearing included) against the unchanged Rust, in one run.
use crate::chunk::{self, Chunk};
use crate::chunks::{Rng, Writer};
use crate::ours::{Buffers, Sizes};
use rilua::Out;
use rilua::compiler::codegen;
use std::hint::black_box;
use std::time::Instant;

const ROUNDS: usize = 31;

/// A constant that repeats after so many: a global's name, or a number where one can't be folded, on the right of an operator.
fn leaf(w: &mut Writer, r: &mut Rng, constants: usize, right: bool) {
    let i = r.below(constants);
    if i % 2 == 0 { w.name(format!("g{i}").as_bytes()) } else if right { w.double(i as f64 + 0.5) } else { w.name(format!("g{}", i - 1).as_bytes()) }
}

/// Operators of every sort that need two operands.
fn binary(w: &mut Writer, r: &mut Rng) { let op = [0, 1, 2, 3, 4, 6, 7, 8, 9, 10, 11, 12, 13, 14][r.below(14)]; w.binary(op) }

/// Exactly n nodes, split evenly: low nesting.
fn flat(w: &mut Writer, r: &mut Rng, n: usize, constants: usize, right: bool) {
    match n {
        1 => leaf(w, r, constants, right),
        2 => { w.unary(r.below(3) as u8); leaf(w, r, constants, false) }
        _ => match r.below(8) {
            0 => { w.unary(r.below(3) as u8); flat(w, r, n - 1, constants, false) }
            1 => { w.field(b"g0"); flat(w, r, n - 1, constants, false) }
            2 => { w.index(); let a = (n - 1) / 2; flat(w, r, a, constants, false); flat(w, r, n - 1 - a, constants, true) }
            3 if n >= 4 => { w.call(2); let a = (n - 1) / 3; flat(w, r, a, constants, false); flat(w, r, a, constants, true); flat(w, r, n - 1 - 2 * a, constants, true) }
            _ => { binary(w, r); let a = (n - 1) / 2; flat(w, r, a, constants, false); flat(w, r, n - 1 - a, constants, true) }
        },
    }
}

/// Exactly n nodes in one chain: a leaf beside each step down, on the right or, one time in four, on the left.
fn deep(w: &mut Writer, r: &mut Rng, n: usize, constants: usize) {
    match n {
        1 => leaf(w, r, constants, false),
        2 => { w.unary(r.below(3) as u8); leaf(w, r, constants, false) }
        _ if r.one_in(4) => { binary(w, r); leaf(w, r, constants, false); deep(w, r, n - 2, constants) }
        _ => { binary(w, r); deep(w, r, n - 2, constants); leaf(w, r, constants, true) }
    }
}

/// n nodes in formulas of at most `each`.
pub fn chunk_of(n: usize, each: usize, constants: usize, is_deep: bool) -> Vec<u8> {
    let formulas = n.div_ceil(each);
    let mut w = Writer::new(&[], false, formulas as u8);
    let mut r = Rng::new((n * 7 + constants) as u64 + u64::from(is_deep));
    for i in 0..formulas {
        let m = n / formulas + usize::from(i < n % formulas);
        if is_deep { deep(&mut w, &mut r, m, constants) } else { flat(&mut w, &mut r, m, constants, false) }
    }
    assert_eq!(w.nodes, n);
    w.bytes
}

fn median(mut v: Vec<f64>) -> f64 { v.sort_by(f64::total_cmp); v[v.len() / 2] }

/// Nanoseconds for one call, over k calls.
fn time(k: usize, mut f: impl FnMut()) -> f64 {
    let t = Instant::now();
    for _ in 0..k { f(); }
    t.elapsed().as_nanos() as f64 / k as f64
}

/// Buffers that fit n nodes: 8n + 1 words and lines, the constants and texts that they list, a place for each node.
fn fitting(n: usize, constants: usize, text: usize) -> Buffers {
    Buffers::new(&Sizes { code: 8 * n + 1, lines: 8 * n + 1, kinds: constants, values: constants, pool: text, scratch: n, counts: 4 })
}

/// A list and then zeros.
fn put<T: Copy + Default>(buffer: &mut [T], list: impl ExactSizeIterator<Item = T>) {
    let (front, behind) = buffer.split_at_mut(list.len());
    for (to, x) in front.iter_mut().zip(list) { *to = x; }
    behind.fill(T::default());
}

/// What is left to do with the Rust's result until the lent buffers hold what ours leaves there; the scratch is left alone, since the Rust has no use for one.
fn put_all(b: &mut Buffers, o: &Out) {
    put(&mut b.code, o.code.iter().copied());
    put(&mut b.lines, o.lines.iter().copied());
    put(&mut b.kinds, o.consts.iter().map(|c| c.0));
    put(&mut b.values, o.consts.iter().map(|c| c.1));
    put(&mut b.pool, o.pool.iter().copied());
    put(&mut b.counts, [o.code.len() as u64, o.consts.len() as u64, o.pool.len() as u64, u64::from(o.frame)].into_iter());
}

/// What ours left is what the Rust's result leaves there.
fn same_but_scratch(ours: &Buffers, o: &Out) {
    let mut b = Buffers::new(&ours.sizes());
    put_all(&mut b, o);
    assert!(b.code == ours.code && b.lines == ours.lines && b.kinds == ours.kinds && b.values == ours.values && b.pool == ours.pool && b.counts == ours.counts, "the same result");
}

/// The Rust from trees.
fn rust(c: &Chunk) -> Out { codegen::drive::drive(&c.locals, c.varargs, &c.formulas).expect("accepted by the Rust") }

/// The oracle's reading of the bytes into trees.
fn read(bytes: &[u8]) -> Chunk { chunk::read(bytes).expect("the form") }

pub fn run(only: Option<&str>) -> i32 {
    let mut rows = 0;
    println!("Nanoseconds per node, median of {ROUNDS} rounds in which the columns take turns.");
    println!("ours: the whole call, from bytes, clearing included; `8n+1`: buffers of 8n + 1 words and lines, constants and text as needed, scratch n;");
    println!("`weavelist`: 8192 words and lines, 2048 constants, 32768 text bytes, scratch 16384.");
    println!("Rust: unchanged, built for speed. `trees`: from trees already built; `bytes`: with the oracle's reading of the chunk. What the Rust hands back is built and dropped within the time.");
    println!("`into 8n+1`, `into weavelist`: as `bytes`, and then its result is put into these buffers, with zeros behind it, all but the scratch.");
    println!();
    println!("| nodes | shape | constants | words | bytes | ours 8n+1 | ours weavelist | Rust trees | Rust bytes | Rust into 8n+1 | Rust into weavelist | ours 8n+1 / trees | / bytes | / into | ours weavelist / trees | / bytes | / into |");
    println!("|---|---|---|---|---|---|---|---|---|---|---|---|---|---|---|---|---|");
    for n in [10usize, 1000, 10_000] {
        for is_deep in [false, true] {
            for constants in [4usize, 255] {
                let shape = if is_deep { "deep" } else { "flat" };
                if only.is_some_and(|o| o != format!("{n}-{shape}-{constants}")) { continue; }
                let bytes = chunk_of(n, if is_deep { 390 } else { 100 }, constants, is_deep);
                let tree = read(&bytes);
                let result = rust(&tree);
                let k = result.consts.len();
                let mut small = fitting(n, k, result.pool.len());
                assert_eq!(small.lower(&bytes), 0, "accepted by ours");
                same_but_scratch(&small, &result);
                let mut weavelist = Buffers::new(&Sizes::WEAVELIST);
                let refused = weavelist.lower(&bytes);
                if refused == 0 { same_but_scratch(&weavelist, &result); }
                let calls = (40_000 / n).max(1);
                let mut times: [Vec<f64>; 6] = Default::default();
                for round in 0..ROUNDS {
                    // forwards and backwards, each time from another column on, so that none always follows the same one
                    for turn in 0..6 {
                        let column = (round + if round % 2 == 0 { turn } else { 6 - turn }) % 6;
                        times[column].push(match column {
                            0 => time(calls, || { black_box(small.lower(black_box(&bytes))); }),
                            1 => time(calls, || { black_box(rust(black_box(&tree))); }),
                            2 => time(calls, || { black_box(weavelist.lower(black_box(&bytes))); }),
                            3 => time(calls, || { black_box(rust(&read(black_box(&bytes)))); }),
                            4 => time(calls, || { put_all(&mut small, &rust(&read(black_box(&bytes)))); black_box(&small); }),
                            _ if refused == 0 => time(calls, || { put_all(&mut weavelist, &rust(&read(black_box(&bytes)))); black_box(&weavelist); }),
                            _ => 0.0,
                        });
                    }
                }
                rows += 1;
                let [small, trees, large, read, into_small, into_large] = times.map(|v| median(v) / n as f64);
                let lent = |t: f64, digits: usize| if refused == 0 { format!("{t:.digits$}") } else { "-".to_string() };
                let ours_large = if refused == 0 { format!("{large:.1}") } else { format!("refused {refused}") };
                println!(
                    "| {n} | {shape} | {k} | {} | {} | {small:.1} | {ours_large} | {trees:.1} | {read:.1} | {into_small:.1} | {} | {:.2} | {:.2} | {:.2} | {} | {} | {} |",
                    result.code.len(), bytes.len(), lent(into_large, 1), small / trees, small / read, small / into_small, lent(large / trees, 2), lent(large / read, 2), lent(large / into_large, 2),
                );
            }
        }
    }
    if rows == 0 { println!("NO ROW is named so: NODES-SHAPE-CONSTANTS with 10, 1000 or 10000, flat or deep, 4 or 255") }
    i32::from(rows == 0)
}

/// All bytes once, eight at a time: true where one isn't 0.
#[inline(always)]
fn any_set(s: &[u64]) -> bool { s.iter().fold(0, |a, b| a | b) != 0 }

#[cfg(target_arch = "x86_64")]
#[target_feature(enable = "avx2")]
fn any_set_wide(s: &[u64]) -> bool { any_set(s) }

/// As wide as the machine reads.
fn looked_at(s: &[u64]) -> bool {
    #[cfg(target_arch = "x86_64")]
    if is_x86_feature_detected!("avx2") {
        // the machine has what the function was compiled for
        return unsafe { any_set_wide(s) };
    }
    any_set(s)
}

/// What no lowering can go below that leaves zeros in `weavelist`'s buffers, whatever they held: each byte is written, or at least looked at.
pub fn clearing() {
    let z = Sizes::WEAVELIST;
    let bytes = 4 * (z.code + z.lines + z.scratch) + z.kinds + 8 * z.values + z.pool;
    let mut s = vec![0u64; bytes / 8];
    let (mut written, mut read) = (Vec::new(), Vec::new());
    for _ in 0..ROUNDS {
        written.push(time(4000, || black_box(&mut s[..]).fill(0)));
        read.push(time(4000, || { black_box(looked_at(black_box(&s))); }));
    }
    println!("{bytes} bytes, as many as weavelist lends, median of {ROUNDS} rounds: {:.0} nanoseconds to write zeros, {:.0} to look at them only.", median(written), median(read));
}

/// One of the two alone, so many times: for a profiler.
pub fn profile(n: usize, is_deep: bool, constants: usize, is_rust: bool, times: usize) {
    let bytes = chunk_of(n, if is_deep { 390 } else { 100 }, constants, is_deep);
    let tree = read(&bytes);
    let needed = rust(&tree);
    let mut b = fitting(n, needed.consts.len(), needed.pool.len());
    for _ in 0..times {
        if is_rust {
            black_box(rust(black_box(&tree)));
        } else {
            assert_eq!(black_box(b.lower(black_box(&bytes))), 0);
        }
    }
}
