//! The machine that runs words, and what makes a run wrong: a register outside the frame, a constant that isn't listed, a jump that doesn't go on to a later word.
use super::opcodes::*;
use super::reading::{Comparison, Outside, Step, Value, of_truth, truth};

pub struct Program { pub words: Vec<u32>, pub constants: Vec<Value>, pub frame: usize }

struct Machine<'a> { program: &'a Program, registers: Vec<Value>, at: usize }

impl Machine<'_> {
    fn wrong<T>(&self, what: String) -> Result<T, String> { Err(format!("word {}: {what}", self.at)) }
    fn get(&self, i: u32) -> Result<Value, String> {
        match self.registers.get(i as usize) { Some(v) => Ok(v.clone()), None => self.wrong(format!("register {i} is outside the frame")) }
    }
    fn set(&mut self, i: u32, v: Value) -> Result<(), String> {
        if i as usize >= self.registers.len() { return self.wrong(format!("register {i} is outside the frame")); }
        self.registers[i as usize] = v;
        Ok(())
    }
    fn constant(&self, i: u32) -> Result<Value, String> {
        match self.program.constants.get(i as usize) { Some(v) => Ok(v.clone()), None => self.wrong(format!("constant {i} isn't listed")) }
    }
    fn rk(&self, i: u32) -> Result<Value, String> { if i < 256 { self.get(i) } else { self.constant(i - 256) } }
    /// So many of a list into registers from `a` on, nil where it ends.
    fn set_list(&mut self, a: u32, n: u32, l: &[Value]) -> Result<(), String> {
        for i in 0..n { self.set(a + i, l.get(i as usize).cloned().unwrap_or(Value::Nil))? }
        Ok(())
    }
}

/// What `Return` hands back, and how many words were carried out; Err says what is wrong.
pub fn run(program: &Program, locals: &[Value], varargs: &[Value], outside: &mut Outside) -> Result<(Vec<Value>, usize), String> {
    if locals.len() > program.frame { return Err("the frame is below the locals".into()); }
    let mut registers = locals.to_vec();
    registers.resize(program.frame, Value::Nil);
    let mut m = Machine { program, registers, at: 0 };
    // an open list, and the A of the word that made it
    let mut open: Option<(u32, Vec<Value>)> = None;
    for step in 1..=program.words.len() {
        let Some(&w) = program.words.get(m.at) else { return m.wrong("is behind the code".into()) };
        let (op, a, c, b, bx) = (w & 63, w >> 6 & 255, w >> 14 & 511, w >> 23, w >> 14);
        let mut next = m.at as i64 + 1;
        match op {
            MOVE => { let v = m.get(b)?; m.set(a, v)? }
            LOADK => { let v = m.constant(bx)?; m.set(a, v)? }
            LOADBOOL => { m.set(a, of_truth(b != 0))?; next += i64::from(c != 0) }
            LOADNIL => {
                if b < a { return m.wrong("LoadNil of none".into()); }
                for i in a..=b { m.set(i, Value::Nil)? }
            }
            GETGLOBAL => {
                let name = m.constant(bx)?;
                if !matches!(name, Value::Text(_)) { return m.wrong("a global's name is no text".into()); }
                m.set(a, outside.one(Step::Global, vec![name]))?
            }
            GETTABLE => { let values = vec![m.get(b)?, m.rk(c)?]; m.set(a, outside.one(Step::Index, values))? }
            SELF => {
                let object = m.get(b)?;
                let method = outside.one(Step::Index, vec![object.clone(), m.rk(c)?]);
                m.set(a + 1, object)?;
                m.set(a, method)?
            }
            ADD..=POW => { let values = vec![m.rk(b)?, m.rk(c)?]; m.set(a, outside.arithmetic(op, values))? }
            UNM => { let values = vec![m.get(b)?]; m.set(a, outside.arithmetic(UNM, values))? }
            NOT => { let v = of_truth(!truth(&m.get(b)?)); m.set(a, v)? }
            LEN => { let values = vec![m.get(b)?]; m.set(a, outside.one(Step::Length, values))? }
            CONCAT => {
                if c <= b { return m.wrong("Concat of fewer than two".into()); }
                let mut joined = m.get(c)?;
                for i in (b..c).rev() { joined = outside.one(Step::Concat, vec![m.get(i)?, joined]) }
                m.set(a, joined)?
            }
            JMP => next += i64::from(bx) - 131_071,
            EQ..=LE => {
                let kind = [Comparison::Equal, Comparison::Less, Comparison::LessEqual][(op - EQ) as usize];
                let (x, y) = (m.rk(b)?, m.rk(c)?);
                next += i64::from(u32::from(outside.compare(kind, x, y)) != a)
            }
            TEST => next += i64::from(u32::from(truth(&m.get(a)?)) != c),
            TESTSET => { let v = m.get(b)?; if u32::from(truth(&v)) == c { m.set(a, v)? } else { next += 1 } }
            CALL => {
                let passed = if b > 0 { a + b } else { match open { Some((made, _)) if made > a => made, _ => return m.wrong("an open Call without a list".into()) } };
                let mut values = Vec::new();
                for i in a..passed { values.push(m.get(i)?) }
                if b == 0 { values.append(&mut open.take().unwrap().1) }
                let answered = outside.list(values);
                if c > 0 { m.set_list(a, c - 1, &answered)? } else if open.is_some() { return m.wrong("a list over a list".into()); } else { open = Some((a, answered)) }
            }
            RETURN => {
                if b == 0 || open.is_some() { return m.wrong("Return of or beside an open list".into()); }
                let values = (0..b - 1).map(|i| m.get(a + i)).collect::<Result<_, _>>()?;
                return Ok((values, step));
            }
            VARARG if b > 0 => m.set_list(a, b - 1, varargs)?,
            VARARG if open.is_some() => return m.wrong("a list over a list".into()),
            VARARG => open = Some((a, varargs.to_vec())),
            _ => return m.wrong(format!("opcode {op}")),
        }
        if next <= m.at as i64 { return m.wrong(format!("goes to word {next}")); }
        m.at = next as usize;
    }
    Err("more steps than words".into())
}
