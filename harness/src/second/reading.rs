//! Values, the outside, and what a chunk's formulas mean: reading them.
use super::nodes::Chunk;
use super::opcodes::{ADD, DIV, MOD, MUL, SUB, UNM};
use crate::chunks::Rng;
use std::rc::Rc;

/// A number is its bits; `Other` is a value from outside, by an identity.
#[derive(Clone, PartialEq, Eq, Hash, Debug)]
pub enum Value { Nil, False, True, Number(u64), Text(Rc<[u8]>), Other(u64) }

pub fn truth(v: &Value) -> bool { !matches!(v, Value::Nil | Value::False) }
pub fn of_truth(b: bool) -> Value { if b { Value::True } else { Value::False } }

/// The folding of two numbers (of one for `UNM`) by an opcode, bits to bits; none where it is declined.
pub fn fold(op: u32, a: u64, b: u64) -> Option<u64> {
    let (x, y) = (f64::from_bits(a), f64::from_bits(b));
    let r = match op {
        ADD => x + y,
        SUB => x - y,
        MUL => x * y,
        DIV | MOD if y == 0.0 => return None,
        DIV => x / y,
        MOD => x - (x / y).floor() * y,
        UNM => -x,
        _ => return None,
    };
    if r.is_nan() { None } else { Some(r.to_bits()) }
}

/// An outward step: its kind, its operator (of arithmetic and comparisons), its values.
#[derive(Clone, Copy, PartialEq, Eq, Hash, Debug)]
pub enum Step { Global, Index, Call, Compare(Comparison), Length, Concat, Arithmetic(u32) }
#[derive(Clone, Copy, PartialEq, Eq, Hash, Debug)]
pub enum Comparison { Equal, Less, LessEqual }

/// Answers every step by a hash of it and of all earlier ones, and keeps the steps.
pub struct Outside<'a> { pub steps: Vec<(Step, Vec<Value>)>, hash: u64, falsehood: usize, texts: &'a [Value] }

fn mix(h: u64, x: u64) -> u64 {
    let z = (h ^ x).wrapping_mul(0x9e37_79b9_7f4a_7c15);
    (z ^ (z >> 29)).wrapping_mul(0xbf58_476d_1ce4_e5b9)
}

impl<'a> Outside<'a> {
    /// `falsehood`: how many of 100 values are nil or false (comparisons answer either way alike). `texts`: what may be answered beside numbers and others.
    pub fn new(seed: u64, falsehood: usize, texts: &'a [Value]) -> Outside<'a> { Outside { steps: Vec::new(), hash: mix(1, seed), falsehood, texts } }

    fn take(&mut self, step: Step, values: Vec<Value>) -> Rng {
        let mut h = mix(self.hash, values.len() as u64);
        h = match step { Step::Global => mix(h, 1), Step::Index => mix(h, 2), Step::Call => mix(h, 3), Step::Compare(c) => mix(h, 4 + c as u64), Step::Length => mix(h, 7), Step::Concat => mix(h, 8), Step::Arithmetic(op) => mix(h, 100 + u64::from(op)) };
        for v in &values {
            h = match v {
                Value::Nil => mix(h, 1), Value::False => mix(h, 2), Value::True => mix(h, 3),
                Value::Number(n) => mix(mix(h, 4), *n),
                Value::Text(t) => t.iter().fold(mix(h, 5), |h, b| mix(h, u64::from(*b))),
                Value::Other(n) => mix(mix(h, 6), *n),
            }
        }
        self.hash = h;
        self.steps.push((step, values));
        Rng::new(h)
    }

    pub fn value(&self, r: &mut Rng) -> Value {
        let x = r.below(100);
        if x < self.falsehood { return if r.one_in(2) { Value::Nil } else { Value::False }; }
        match r.below(8) {
            0 => Value::True,
            1 | 2 => Value::Other(r.next()),
            3 if !self.texts.is_empty() => self.texts[r.below(self.texts.len())].clone(),
            _ => Value::Number(number(r)),
        }
    }
    pub fn one(&mut self, step: Step, values: Vec<Value>) -> Value { let mut r = self.take(step, values); self.value(&mut r) }
    pub fn compare(&mut self, c: Comparison, a: Value, b: Value) -> bool { let mut r = self.take(Step::Compare(c), vec![a, b]); r.one_in(2) }
    pub fn list(&mut self, values: Vec<Value>) -> Vec<Value> {
        let mut r = self.take(Step::Call, values);
        (0..r.below(4)).map(|_| self.value(&mut r)).collect()
    }
    /// A step only where folding would decline, or where an operand is no number.
    pub fn arithmetic(&mut self, op: u32, values: Vec<Value>) -> Value {
        let folded = match values[..] { [Value::Number(a)] => fold(op, a, 0), [Value::Number(a), Value::Number(b)] => fold(op, a, b), _ => None };
        folded.map_or_else(|| self.one(Step::Arithmetic(op), values), Value::Number)
    }
}

/// Numbers that folding treats apart, small ones, and any bits.
fn number(r: &mut Rng) -> u64 {
    const SPECIAL: [f64; 14] = [0.0, -0.0, 1.0, -1.0, 2.0, 3.0, -3.0, 7.0, 0.5, f64::INFINITY, f64::NEG_INFINITY, f64::NAN, f64::MAX, 5e-324];
    match r.below(4) { 0 => r.next(), 1 => ((r.below(200) as f64 - 100.0) / 4.0).to_bits(), _ => SPECIAL[r.below(14)].to_bits() }
}

pub fn text(t: &[u8]) -> Value { Value::Text(Rc::from(t)) }
pub fn first(l: &[Value]) -> Value { l.first().cloned().unwrap_or(Value::Nil) }

/// Reading: operands from left to right, `and` and `or` only as far as they need, one value of each but the last argument.
pub struct Reading<'a, 'b> { pub chunk: &'a Chunk<'a>, pub locals: &'a [Value], pub varargs: &'a [Value], pub outside: Outside<'b> }

impl Reading<'_, '_> {
    pub fn formulas(&mut self) -> Vec<Value> {
        let mut i = 0;
        (0..self.chunk.formulas).map(|_| { let v = self.one(i); i = self.chunk.behind(i); v }).collect()
    }

    fn call(&mut self, i: usize) -> Vec<Value> {
        let n = self.chunk.nodes[i];
        let called = self.one(i + 1);
        let mut values = if n.kind == 12 { vec![called] } else {
            let method = self.outside.one(Step::Index, vec![called.clone(), text(self.chunk.text(i))]);
            vec![method, called]
        };
        let mut k = self.chunk.behind(i + 1);
        for left in (0..n.arguments).rev() {
            match self.chunk.nodes[k].kind {
                5 if left == 0 => values.extend_from_slice(self.varargs),
                11 | 12 if left == 0 => values.append(&mut self.call(k)),
                _ => values.push(self.one(k)),
            }
            k = self.chunk.behind(k);
        }
        self.outside.list(values)
    }

    fn one(&mut self, i: usize) -> Value {
        let n = self.chunk.nodes[i];
        let child = i + 1;
        match n.kind {
            0 => Value::Nil,
            1 => Value::True,
            2 => Value::False,
            3 => Value::Number(n.number),
            4 => text(self.chunk.text(i)),
            5 => first(self.varargs),
            6 => match self.chunk.local(self.chunk.text(i)) {
                Some(l) => self.locals[l].clone(),
                None => self.outside.one(Step::Global, vec![text(self.chunk.text(i))]),
            },
            7 => {
                let right = self.chunk.behind(child);
                let a = self.one(child);
                if n.op == 13 && !truth(&a) || n.op == 14 && truth(&a) { return a; }
                let b = self.one(right);
                match n.op {
                    0..=5 => self.outside.arithmetic(ADD + u32::from(n.op), vec![a, b]),
                    6 => self.outside.one(Step::Concat, vec![a, b]),
                    7 => of_truth(self.outside.compare(Comparison::Less, a, b)),
                    8 => of_truth(self.outside.compare(Comparison::LessEqual, a, b)),
                    9 => of_truth(self.outside.compare(Comparison::Less, b, a)),
                    10 => of_truth(self.outside.compare(Comparison::LessEqual, b, a)),
                    11 => of_truth(self.outside.compare(Comparison::Equal, a, b)),
                    12 => of_truth(!self.outside.compare(Comparison::Equal, a, b)),
                    _ => b,
                }
            }
            8 => {
                let a = self.one(child);
                match n.op { 0 => self.outside.arithmetic(UNM, vec![a]), 1 => of_truth(!truth(&a)), _ => self.outside.one(Step::Length, vec![a]) }
            }
            9 => {
                let object = self.one(child);
                let key = self.one(self.chunk.behind(child));
                self.outside.one(Step::Index, vec![object, key])
            }
            10 => {
                let object = self.one(child);
                self.outside.one(Step::Index, vec![object, text(self.chunk.text(i))])
            }
            11 | 12 => first(&self.call(i)),
            _ => self.one(child),
        }
    }
}
