//! A second reading of document 01: form, lowering, machine and reading. It was first written, from that paper and the Rust, by somebody who had seen neither the definitions nor the code of this repository; this is the same, shortened by one who had.
//! Ours must agree with it in everything: answer, refusals in their order, every buffer; and the words that ours leaves, run on that machine, must return what the formulas mean, with the same outward steps in the same order.
mod lowering;
mod machine;
mod nodes;
mod opcodes;
mod reading;

use crate::chunks::{Rng, Writer};
use crate::compare::{all_zeros, buffers, is_result, report};
use crate::generators::{KINDS, make};
use crate::ours::{Buffers, Sizes};
use machine::{Program, run};
use nodes::{Chunk, form};
use reading::{Outside, Reading, Value, text};
use std::time::Instant;

#[derive(Default)]
struct Tally {
    chunks: u64,
    calls: u64,
    accepted: u64,
    refused: [u64; 14],
    runs: u64,
    steps: u64,
    outward: u64,
    mismatches: u64,
}

const UNBOUNDED: Sizes = Sizes { code: usize::MAX, lines: usize::MAX, kinds: usize::MAX, values: usize::MAX, pool: usize::MAX, scratch: usize::MAX, counts: 4 };

/// What ours left in the buffers, as a program.
fn program(b: &Buffers) -> Result<Program, String> {
    let n = |i: usize| b.counts[i] as usize;
    let constant = |i: usize| match (b.kinds[i], b.values[i]) {
        (0, 0) => Ok(Value::Nil),
        (1, 0) => Ok(Value::False),
        (2, 0) => Ok(Value::True),
        (3, bits) => Ok(Value::Number(bits)),
        (4, v) => b.pool[..n(2)].get((v >> 16) as usize..(v >> 16) as usize + (v & 65_535) as usize).map(text).ok_or("a text outside the pool".to_string()),
        (k, v) => Err(format!("an entry {k} {v}")),
    };
    Ok(Program { words: b.code[..n(0)].to_vec(), constants: (0..n(1)).map(constant).collect::<Result<_, _>>()?, frame: n(3) })
}

/// Three runs against as many readings, with few, some and many values that are nil or false.
fn runs(p: &Program, c: &Chunk, t: &mut Tally, r: &mut Rng) -> Result<(), String> {
    let texts: Vec<Value> = p.constants.iter().filter(|k| matches!(k, Value::Text(_))).cloned().collect();
    for falsehood in [12, 45, 80] {
        let seed = r.next();
        let mut values = |n: usize| -> Vec<Value> { let o = Outside::new(0, falsehood, &texts); (0..n).map(|_| o.value(r)).collect() };
        let locals = values(c.locals.len());
        let varargs = values(if c.varargs { seed as usize % 5 } else { 0 });
        let mut reading = Reading { chunk: c, locals: &locals, varargs: &varargs, outside: Outside::new(seed, falsehood, &texts) };
        let meant = reading.formulas();
        let mut outside = Outside::new(seed, falsehood, &texts);
        let (returned, steps) = run(p, &locals, &varargs, &mut outside)?;
        if outside.steps != reading.outside.steps { return Err("other outward steps than the reading's".into()); }
        if returned != meant { return Err(format!("the run returns {returned:?}, the reading {meant:?}")); }
        t.runs += 1;
        t.steps += steps as u64;
        t.outward += outside.steps.len() as u64;
    }
    Ok(())
}

/// One call in buffers of these lengths.
fn call(bytes: &[u8], formed: &Result<Chunk, u32>, z: &Sizes, b: &mut Buffers, t: &mut Tally) -> Result<bool, String> {
    t.calls += 1;
    let want = match formed { Ok(c) => lowering::lower(c, z), Err(k) => Err(*k) };
    let got = b.lower_garbage(bytes, z)?;
    match want {
        Err(k) if got != k => Err(format!("{z:?}: {k} is due, ours says {got}")),
        Err(k) if !all_zeros(b, z) => Err(format!("{z:?}: refused {k}, but not all zeros")),
        Err(k) => { t.refused[k as usize] += 1; Ok(false) }
        Ok(_) if got != 0 => Err(format!("{z:?}: to be accepted, ours refuses {got}")),
        Ok(o) => {
            let places: Vec<u32> = formed.as_ref().map_or(Vec::new(), |c| c.nodes.iter().map(|n| n.place).collect());
            is_result(b, z, &o, &places).map_err(|e| format!("{z:?}: other {e}"))?;
            t.accepted += 1;
            Ok(true)
        }
    }
}

/// One chunk in buffers that are large enough, with runs, and so many times in others, each of which may be too short.
fn one(bytes: &[u8], b: &mut Buffers, t: &mut Tally, r: &mut Rng, short: usize) -> Result<(), String> {
    t.chunks += 1;
    let formed = form(bytes);
    let whole = formed.as_ref().ok().and_then(|c| lowering::lower(c, &UNBOUNDED).ok());
    let nodes = formed.as_ref().map_or(4, |c| c.nodes.len());
    // where it is refused anyway, lengths that may or may not reach so far
    let (words, constants, pool) = whole.as_ref().map_or((nodes.min(400), nodes, 2 * nodes), |o| (o.code.len(), o.consts.len(), o.pool.len()));
    // what include/fuchsiarasp.h says of the chunks compared here
    if whole.as_ref().is_some_and(|o| o.code.len() > 8 * nodes + 1 || o.consts.len() > nodes) { return Err("more than 8 words for each node and one, or more constants than nodes".into()); }
    let exact = Sizes { code: words, lines: words, kinds: constants, values: constants, pool, scratch: nodes, counts: 4 };
    let mut more = |n: usize| n + [0, 1, r.below(5), r.below(40)][r.below(4)];
    let large = Sizes { code: more(words), lines: more(words), kinds: more(constants), values: more(constants), pool: more(pool), scratch: more(nodes), counts: 4 };
    if call(bytes, &formed, &large, b, t)? && let Ok(c) = &formed { runs(&program(b)?, c, t, r)? }
    for _ in 0..short {
        let mut less = |n: usize| match r.below(8) { 0 | 1 => n.saturating_sub(1), 2 => 0, 3 => r.below(n + 1), _ => n + r.below(3) };
        let z = Sizes { code: less(exact.code), lines: less(exact.lines), kinds: less(exact.kinds), values: less(exact.values), pool: less(exact.pool), scratch: if r.one_in(8) { r.below(nodes + 1) } else { nodes }, counts: r.below(7) };
        call(bytes, &formed, &z, b, t)?;
    }
    Ok(())
}

fn tell(t: &Tally, begun: Instant) -> i32 {
    println!("| what | number |\n|---|---|");
    println!("| chunks | {} |\n| calls | {} |\n| accepted, every buffer equal | {} |", t.chunks, t.calls, t.accepted);
    println!("| runs that return what the formulas mean | {} |\n| words carried out | {} |\n| outward steps compared | {} |\n| mismatches | {} |", t.runs, t.steps, t.outward, t.mismatches);
    println!("\n| refusal | {} |\n|---|{}", (1..14).map(|i| i.to_string()).collect::<Vec<_>>().join(" | "), "---|".repeat(13));
    println!("| calls | {} |", t.refused[1..].iter().map(u64::to_string).collect::<Vec<_>>().join(" | "));
    println!("\nTime: {} s.", begun.elapsed().as_secs());
    i32::from(t.mismatches > 0 || t.runs == 0)
}

/// The generators' chunks: of each generator one in `share`.
pub fn generated(share: u64, round: u8) -> i32 {
    let (begun, mut b, mut t, mut bytes) = (Instant::now(), buffers(), Tally::default(), Vec::new());
    for (k, kind) in KINDS.iter().enumerate() {
        let mut r = Rng::new(1000 + k as u64);
        for i in 0..kind.chunks.div_ceil(share) {
            make(k, round, i * share, &mut bytes);
            if let Err(e) = one(&bytes, &mut b, &mut t, &mut r, 2) {
                t.mismatches += 1;
                if t.mismatches <= 5 { report(&bytes, &e, &format!("{} {}", kind.name, i * share)) }
            }
        }
        eprintln!("{} done, {} s", kind.name, begun.elapsed().as_secs());
    }
    tell(&t, begun)
}

/// Every expression of up to n nodes over a few leaves and operators, each alone, as an argument, as an operand of + and of <, as a key, and between two nils.
pub fn shapes(n: usize) -> i32 {
    let (begun, mut b, mut t, mut r) = (Instant::now(), buffers(), Tally::default(), Rng::new(7));
    let write = |f: &dyn Fn(&mut Writer)| { let mut w = Writer::new(&[], false, 0); w.bytes.clear(); f(&mut w); w.bytes };
    let leaves = [write(&|w| w.name(b"a")), write(&|w| w.name(b"x")), write(&|w| w.nil()), write(&|w| w.double(1.5)), write(&|w| w.vararg())];
    let unary = [write(&|w| w.unary(1)), write(&|w| { w.call(1); w.name(b"f") })];
    let binary: Vec<Vec<u8>> = [0, 6, 7, 13, 14].iter().map(|op| write(&|w| w.binary(*op))).collect();
    let around: [(&dyn Fn(&mut Writer), u8, &dyn Fn(&mut Writer)); 6] = [
        (&|_| (), 1, &|_| ()),
        (&|w| { w.call(2); w.name(b"b") }, 1, &|w| w.nil()),
        (&|w| { w.binary(0); w.double(2.5) }, 1, &|_| ()),
        (&|w| { w.binary(7); w.double(3.5) }, 1, &|_| ()),
        (&|w| { w.index(); w.name(b"b") }, 1, &|_| ()),
        (&|w| w.nil(), 3, &|w| w.nil()),
    ];
    let mut of_size: Vec<Vec<Vec<u8>>> = vec![Vec::new(), leaves.to_vec()];
    for size in 2..=n {
        let mut made = Vec::new();
        for u in &unary { for e in &of_size[size - 1] { made.push([&u[..], e].concat()) } }
        for o in &binary { for left in 1..size - 1 { for x in &of_size[left] { for y in &of_size[size - 1 - left] { made.push([&o[..], x, y].concat()) } } } }
        of_size.push(made);
    }
    for e in of_size.iter().flatten() {
        for (before, formulas, behind) in &around {
            let mut w = Writer::new(&[b"a", b"b"], true, *formulas);
            before(&mut w);
            w.bytes.extend_from_slice(e);
            behind(&mut w);
            if let Err(what) = one(&w.bytes, &mut b, &mut t, &mut r, 0) {
                t.mismatches += 1;
                if t.mismatches <= 5 { report(&w.bytes, &what, "shapes") }
            }
        }
    }
    tell(&t, begun)
}
