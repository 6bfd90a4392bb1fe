//! Ours against the Rust, with document 01's differences 1 to 4 and unchanged, chunk by chunk.
use crate::chunk;
use crate::chunks::{Rng, hex};
use crate::form;
use crate::generators::{KINDS, make};
use crate::ours::{Buffers, Sizes};
use rilua::Out;
use rilua::compiler::{ast::Expr, codegen, codegen_differences};
use std::cell::Cell;
use std::collections::HashSet;
use std::hash::{DefaultHasher, Hash, Hasher};
use std::time::Instant;

#[derive(Clone, Default)]
struct Tally {
    chunks: u64,
    accepted: u64,
    /// by number, with buffers that are large enough
    refused: [u64; 14],
    near_constants: u64,
    /// form, UTF-8 names: both variants ran
    compared: u64,
    differ: u64,
    /// the Rust with the differences refuses, the unchanged one goes on: difference 4
    dropped: u64,
    equal_unchanged: u64,
    /// the Rust's code is longer than 131,071 words
    long: u64,
    not_utf8: u64,
    /// the unchanged Rust panics, where the one with the differences answers
    panics: u64,
    /// calls with smaller buffers: exactly enough, too small by number, and two too small at once, where either number may be given
    exact: u64,
    short: [u64; 14],
    either: u64,
    mismatches: u64,
}

impl Tally {
    fn add(&mut self, t: &Tally) {
        self.chunks += t.chunks; self.accepted += t.accepted; self.near_constants += t.near_constants; self.compared += t.compared; self.differ += t.differ; self.dropped += t.dropped;
        self.equal_unchanged += t.equal_unchanged; self.long += t.long; self.not_utf8 += t.not_utf8; self.panics += t.panics; self.exact += t.exact; self.either += t.either; self.mismatches += t.mismatches;
        for i in 0..14 { self.refused[i] += t.refused[i]; self.short[i] += t.short[i]; }
    }
}

type Answer = Result<Out, String>;
type Drive = fn(&[String], bool, &[Expr]) -> Answer;

thread_local! { static IN_RUST: Cell<bool> = const { Cell::new(false) }; }

/// A panic of the Rust is an answer of its own, and isn't reported; any other is.
pub fn quiet_in_rust() {
    let report = std::panic::take_hook();
    std::panic::set_hook(Box::new(move |p| if !IN_RUST.get() { report(p) }));
}

fn rust(drive: Drive, c: &chunk::Chunk) -> Answer {
    IN_RUST.set(true);
    let answer = std::panic::catch_unwind(|| drive(&c.locals, c.varargs, &c.formulas)).unwrap_or_else(|_| Err("panic".into()));
    IN_RUST.set(false);
    answer
}

fn zeros<T: PartialEq + Default>(s: &[T]) -> bool { let z = T::default(); s.iter().all(|x| *x == z) }

/// Every lent buffer is zeros.
pub fn all_zeros(b: &Buffers, z: &Sizes) -> bool {
    zeros(&b.code[..z.code]) && zeros(&b.lines[..z.lines]) && zeros(&b.kinds[..z.kinds]) && zeros(&b.values[..z.values]) && zeros(&b.pool[..z.pool]) && zeros(&b.scratch[..z.scratch]) && zeros(&b.counts[..z.counts])
}

fn filled<T: PartialEq + Default>(s: &[T], list: &[T]) -> bool { list.len() <= s.len() && s[..list.len()] == *list && zeros(&s[list.len()..]) }

/// Every lent buffer is the result and then zeros.
pub fn is_result(b: &Buffers, z: &Sizes, o: &Out, places: &[u32]) -> Result<(), &'static str> {
    let counts = [o.code.len() as u64, o.consts.len() as u64, o.pool.len() as u64, u64::from(o.frame)];
    let kinds: Vec<u8> = o.consts.iter().map(|c| c.0).collect();
    let values: Vec<u64> = o.consts.iter().map(|c| c.1).collect();
    if !filled(&b.counts[..z.counts], &counts[..z.counts.min(4)]) { return Err("counts"); }
    if !filled(&b.code[..z.code], &o.code) { return Err("words"); }
    if !filled(&b.lines[..z.lines], &o.lines) { return Err("lines"); }
    if !filled(&b.kinds[..z.kinds], &kinds) { return Err("kinds"); }
    if !filled(&b.values[..z.values], &values) { return Err("values"); }
    if !filled(&b.pool[..z.pool], &o.pool) { return Err("pool"); }
    if !filled(&b.scratch[..z.scratch], places) { return Err("scratch"); }
    Ok(())
}

/// What ours left in the buffers, as the Rust's result.
fn taken(b: &Buffers) -> Out {
    let n = |i: usize| b.counts[i] as usize;
    Out { code: b.code[..n(0)].to_vec(), lines: b.lines[..n(0)].to_vec(), consts: (0..n(1)).map(|i| (b.kinds[i], b.values[i])).collect(), pool: b.pool[..n(2)].to_vec(), frame: b.counts[3] as u32 }
}

/// One chunk, in large buffers and, if `small`, in others; Err says what is wrong.
fn one(bytes: &[u8], b: &mut Buffers, t: &mut Tally, r: &mut Rng, small: bool) -> Result<(), String> {
    t.chunks += 1;
    let formed = form::check(bytes);
    let nodes = formed.as_ref().map_or(8, |f| f.places.len());
    let extra = r.below(6);
    let large = Sizes { code: (8 * nodes + 1 + extra).min(131_500), lines: (8 * nodes + 1 + r.below(3)).min(131_500), kinds: nodes + 3 + extra, values: nodes + 3 + r.below(3), pool: bytes.len().min(1_048_576) + extra, scratch: nodes + extra, counts: r.between(4, 6) };
    let got = b.lower_garbage(bytes, &large)?;
    if got == 0 { t.accepted += 1 } else { *t.refused.get_mut(got as usize).ok_or("a number above 13")? += 1 }
    if got != 0 && !all_zeros(b, &large) { return Err(format!("refused {got}, but not all zeros")); }
    let formed = match formed {
        Err(k) if got == k => return if small { refused_with(bytes, b, t, &NONE, k) } else { Ok(()) },
        Err(k) => return Err(format!("the form says {k}, ours {got}")),
        Ok(f) => f,
    };
    if (1..=9).contains(&got) { return Err(format!("the form is good, ours says {got}")); }
    let tree = chunk::read(bytes);
    let ours = if let Some(c) = tree {
        if !formed.utf8 { return Err("the oracle reads names that aren't UTF-8".into()); }
        t.compared += 1;
        let with = rust(codegen_differences::drive::drive, &c);
        let unchanged = rust(codegen::drive::drive, &c);
        let same = with == unchanged;
        if unchanged.as_ref().is_err_and(|e| e == "panic") { t.panics += 1 } else if !same { t.differ += 1 }
        if with.is_err() && unchanged.is_ok() { t.dropped += 1 }
        match with {
            Ok(o) if o.code.len() > 131_071 => return if got == 13 { t.long += 1; Ok(()) } else { Err(format!("more than 131,071 words, ours says {got}")) },
            Ok(o) => {
                if got != 0 { return Err(format!("the Rust accepts, ours refuses {got}")); }
                is_result(b, &large, &o, &formed.places).map_err(|e| format!("other {e} than the Rust's"))?;
                if same { t.equal_unchanged += 1 }
                if (250..=260).contains(&o.consts.len()) { t.near_constants += 1 }
                o
            }
            Err(e) => {
                let want = match e.as_str() { "function or expression too complex" => 10, "constant table overflow" => 11, _ => 0 };
                if want == 0 { return Err(format!("the Rust with the differences: {e}; ours says {got}")); }
                if got != want { return Err(format!("the Rust says {e}, ours {got}")); }
                if same { t.equal_unchanged += 1 }
                // 9 comes before 10 and 11
                return if small && nodes > 0 { refused_with(bytes, b, t, &Sizes { scratch: nodes - 1, ..large }, 9) } else { Ok(()) };
            }
        }
    } else {
        if formed.utf8 { return Err("the oracle can't read a chunk that has the form".into()); }
        t.not_utf8 += 1;
        if got != 0 { return Ok(()); }
        let o = taken(b);
        is_result(b, &large, &o, &formed.places).map_err(|e| format!("{e} aren't a list and zeros"))?;
        o
    };
    if small { smaller(bytes, b, t, r, &ours, &formed.places)? }
    Ok(())
}

const NONE: Sizes = Sizes { code: 0, lines: 0, kinds: 0, values: 0, pool: 0, scratch: 0, counts: 0 };

/// One call in these buffers, which must be refused with `want`, and all zeros.
fn refused_with(bytes: &[u8], b: &mut Buffers, t: &mut Tally, z: &Sizes, want: u32) -> Result<(), String> {
    let got = b.lower_garbage(bytes, z)?;
    if got != want { return Err(format!("{z:?}: {want} is due, ours says {got}")); }
    if !all_zeros(b, z) { return Err(format!("{z:?}: refused {got}, but not all zeros")); }
    t.short[got as usize] += 1;
    Ok(())
}

/// Buffers that are exactly large enough give the same; a single one that is smaller gives its refusal.
fn smaller(bytes: &[u8], b: &mut Buffers, t: &mut Tally, r: &mut Rng, o: &Out, places: &[u32]) -> Result<(), String> {
    let exact = Sizes { code: o.code.len(), lines: o.code.len(), kinds: o.consts.len(), values: o.consts.len(), pool: o.pool.len(), scratch: places.len(), counts: r.below(7) };
    let got = b.lower_garbage(bytes, &exact)?;
    if got != 0 { return Err(format!("exactly enough, and refused {got}")); }
    is_result(b, &exact, o, places).map_err(|e| format!("exactly enough, and other {e}"))?;
    t.exact += 1;
    // one less, or any smaller length
    let less = |n: usize, r: &mut Rng| if r.one_in(2) { n - 1 } else { r.below(n) };
    let mut tries: Vec<(Sizes, u32)> = Vec::new();
    tries.push((Sizes { code: less(exact.code, r), ..exact }, 13));
    tries.push((Sizes { lines: less(exact.lines, r), code: exact.code + 3, ..exact }, 13));
    if exact.kinds > 0 {
        tries.push((Sizes { kinds: less(exact.kinds, r), ..exact }, 11));
        tries.push((Sizes { values: less(exact.values, r), kinds: exact.kinds + 2, ..exact }, 11));
    }
    if exact.pool > 0 { tries.push((Sizes { pool: less(exact.pool, r), ..exact }, 12)) }
    if exact.scratch > 0 {
        tries.push((Sizes { scratch: less(exact.scratch, r), ..exact }, 9));
        // 9 comes before the others
        tries.push((Sizes { scratch: less(exact.scratch, r), code: 0, kinds: 0, pool: 0, ..exact }, 9));
    }
    if exact.kinds > 0 {
        // two at once: one of the two, whichever is met first
        let z = Sizes { code: less(exact.code, r), values: less(exact.values, r), ..exact };
        let got = b.lower_garbage(bytes, &z)?;
        if got != 11 && got != 13 { return Err(format!("{z:?}: 11 or 13 is due, ours says {got}")); }
        if !all_zeros(b, &z) { return Err(format!("{z:?}: refused {got}, but not all zeros")); }
        t.either += 1;
    }
    for (z, want) in tries { refused_with(bytes, b, t, &z, want)? }
    Ok(())
}

pub fn buffers() -> Buffers { Buffers::new(&NONE) }

pub fn report(bytes: &[u8], what: &str, of: &str) {
    let h = if bytes.len() <= 20_000 { hex(bytes) } else { format!("{} bytes", bytes.len()) };
    println!("MISMATCH {of}: {what}: {h}");
}

/// What a whole run must have at least.
fn enough(sum: &Tally, met: [u64; 4]) -> Vec<String> {
    let mut few = Vec::new();
    let mut least = |what: &str, n: u64, want: u64| if n < want { few.push(format!("{what}: {n}, fewer than {want}")) };
    least("chunks", sum.chunks, 1_000_000);
    least("accepted", sum.accepted, 300_000);
    least("with 250 to 260 constants", sum.near_constants, 10_000);
    for k in 1..14 { least(&format!("refused {k}"), sum.refused[k] + sum.short[k], 1000) }
    for (i, n) in met.into_iter().enumerate() { least(&format!("meeting difference {}", i + 1), n, 1000) }
    few
}

/// `share`: of each generator's chunks one in so many.
pub fn run(share: u64, round: u8) -> i32 {
    let begun = Instant::now();
    let mut b = buffers();
    let mut all: Vec<Tally> = Vec::new();
    let mut seen = HashSet::new();
    for (k, kind) in KINDS.iter().enumerate() {
        let mut t = Tally::default();
        let mut bytes = Vec::new();
        let mut r = Rng::new(k as u64 + 1);
        for i in 0..kind.chunks.div_ceil(share) {
            make(k, round, i * share, &mut bytes);
            let mut h = DefaultHasher::new();
            bytes.hash(&mut h);
            seen.insert(h.finish());
            let small = i % 8 == 0 || kind.chunks < 100;
            if let Err(e) = one(&bytes, &mut b, &mut t, &mut r, small) {
                t.mismatches += 1;
                if t.mismatches <= 5 { report(&bytes, &e, &format!("{} {}", kind.name, i * share)) }
            }
        }
        eprintln!("{} done, {} s", kind.name, begun.elapsed().as_secs());
        all.push(t);
    }
    let mut sum = Tally::default();
    for t in &all { sum.add(t) }
    let of = |n: &str| &all[KINDS.iter().position(|k| k.name == n).unwrap()];
    let met = [of("logic").differ, of("constants").differ, of("power").differ, of("dropped").dropped];
    tables(&all, &sum, seen.len(), met);
    println!("\nTime: {} s.", begun.elapsed().as_secs());
    let few = if share == 1 { enough(&sum, met) } else { Vec::new() };
    for f in &few { println!("TOO FEW {f}") }
    i32::from(sum.mismatches > 0 || !few.is_empty())
}

fn tables(all: &[Tally], sum: &Tally, different: usize, met: [u64; 4]) {
    println!("| what | number |\n|---|---|");
    println!("| chunks | {} |", sum.chunks);
    println!("| of them different from all before (by a hash of 64 bits) | {different} |");
    println!("| accepted by ours | {} |", sum.accepted);
    println!("| compared with both variants (form, UTF-8 names) | {} |", sum.compared);
    println!("| equal to the unchanged Rust (answer, words, lines, constants, texts, frame; or refused as it refuses) | {} |", sum.equal_unchanged);
    println!("| the two variants differ (a difference with effect) | {} |", sum.differ);
    println!("| the Rust's code is longer than 131,071 words, ours refuses 13 | {} |", sum.long);
    println!("| with 250 to 260 constants, accepted | {} |", sum.near_constants);
    println!("| not comparable: names that aren't UTF-8 | {} |", sum.not_utf8);
    println!("| not comparable: form refused (1 to 8), checked against a form check of the harness | {} |", sum.refused[1..9].iter().sum::<u64>());
    println!("| calls with buffers exactly large enough, same result | {} |", sum.exact);
    println!("| the unchanged Rust panics | {} |", sum.panics);
    println!("| further calls with a buffer too small, or none, refusal as due | {} |", sum.short.iter().sum::<u64>());
    println!("| calls with code and constants both too small, 11 or 13 | {} |", sum.either);
    println!("| mismatches | {} |", sum.mismatches);
    println!("\n| refusal | {} |\n|---|{}", (1..14).map(|i| i.to_string()).collect::<Vec<_>>().join(" | "), "---|".repeat(13));
    println!("| chunks, buffers large enough | {} |", sum.refused[1..].iter().map(u64::to_string).collect::<Vec<_>>().join(" | "));
    println!("| further calls with a buffer too small, or none | {} |", sum.short[1..].iter().map(u64::to_string).collect::<Vec<_>>().join(" | "));
    println!("\n| generator | what | chunks | accepted | refused | variants differ | Rust drops an error | equal to unchanged | 250 to 260 constants | mismatches |\n|---|---|---|---|---|---|---|---|---|---|");
    for (t, k) in all.iter().zip(KINDS) {
        println!("| {} | {} | {} | {} | {} | {} | {} | {} | {} | {} |", k.name, k.about, t.chunks, t.accepted, t.refused.iter().sum::<u64>(), t.differ, t.dropped, t.equal_unchanged, t.near_constants, t.mismatches);
    }
    println!("\n| difference | chunks that meet it with effect | generator |\n|---|---|---|");
    for (i, of) in ["logic", "constants", "power", "dropped (the Rust with the differences refuses, the unchanged one goes on)"].iter().enumerate() { println!("| {} | {} | {of} |", i + 1, met[i]) }
}

/// The chunks of a file with lines `hex CHUNK`, or chunks given in hex.
pub fn listed(chunks: &[Vec<u8>]) -> i32 {
    let (mut b, mut t, mut r) = (buffers(), Tally::default(), Rng::new(9));
    for c in chunks {
        if let Err(e) = one(c, &mut b, &mut t, &mut r, true) { t.mismatches += 1; report(c, &e, "listed") }
    }
    println!("chunks {} accepted {} equal to unchanged {} variants differ {} exact {} mismatches {}", t.chunks, t.accepted, t.equal_unchanged, t.differ, t.exact, t.mismatches);
    if chunks.is_empty() { println!("NO CHUNKS") }
    i32::from(t.mismatches > 0 || chunks.is_empty())
}

/// The unchanged Rust's pool of each chunk, in hex: what the program replay_test is to print of it.
pub fn pools(chunks: &[Vec<u8>]) -> i32 {
    for c in chunks {
        let Some(tree) = chunk::read(c) else { println!("unreadable"); continue };
        match rust(codegen::drive::drive, &tree) { Ok(o) => println!("{}", hex(&o.pool)), Err(e) => println!("error {e}") }
    }
    i32::from(chunks.is_empty())
}
