//! The lowering once more: rilua's codegen.rs with document 01's differences 1 to 4 and its limits, so that refusals 9 to 13 are given in their order too.
use super::nodes::Chunk;
use super::opcodes::*;
use super::reading::fold;
use crate::ours::Sizes;
use rilua::Out;
use std::collections::HashMap;

const NO_REG: u32 = 255;
const NO_JUMP: i32 = -1;

fn abc(op: u32, a: u32, b: u32, c: u32) -> u32 { op | (a & 255) << 6 | (b & 511) << 23 | (c & 511) << 14 }
fn abx(op: u32, a: u32, bx: u32) -> u32 { op | (a & 255) << 6 | (bx & 0x3ffff) << 14 }
fn op(w: u32) -> u32 { w & 63 }
fn get_a(w: u32) -> u32 { w >> 6 & 255 }
fn get_b(w: u32) -> u32 { w >> 23 }
fn get_c(w: u32) -> u32 { w >> 14 & 511 }
fn set_a(w: u32, a: u32) -> u32 { w & !(255 << 6) | (a & 255) << 6 }
fn set_b(w: u32, b: u32) -> u32 { w & !(511 << 23) | (b & 511) << 23 }
fn set_c(w: u32, c: u32) -> u32 { w & !(511 << 14) | (c & 511) << 14 }

#[derive(Clone, Copy, PartialEq)]
enum Kind { Nil, True, False, K, KNum, Local, Global, Indexed, Jmp, Relocable, NonReloc, Call, VarArg }

/// A descriptor. The jump lists t and f are -1 for none.
#[derive(Clone, Copy)]
struct Expr { kind: Kind, info: i32, aux: i32, number: u64, t: i32, f: i32 }

impl Expr {
    fn new(kind: Kind, info: i32) -> Expr { Expr { kind, info, aux: 0, number: 0, t: NO_JUMP, f: NO_JUMP } }
    fn number(number: u64) -> Expr { Expr { number, ..Expr::new(Kind::KNum, 0) } }
    fn has_jumps(&self) -> bool { self.t != self.f }
    fn is_numeral(&self) -> bool { self.kind == Kind::KNum && self.t == NO_JUMP && self.f == NO_JUMP }
}

/// Kind byte, bits, bytes: what makes two constants equal.
type Constant<'a> = (u8, u64, &'a [u8]);

/// An answer, or the refusal's number.
type Answer<T> = Result<T, u32>;

struct Compiler<'a> {
    chunk: &'a Chunk<'a>,
    out: Out,
    index: HashMap<Constant<'a>, u32>,
    free_reg: u32,
    active: u32,
    jpc: i32,
    last_target: i32,
    line: u32,
    most_words: usize,
    most_constants: usize,
    most_text: usize,
}

impl<'a> Compiler<'a> {
    // ---- words, jumps
    fn pc(&self) -> i32 { self.out.code.len() as i32 }
    fn word(&self, i: i32) -> u32 { self.out.code[i as usize] }
    fn change(&mut self, i: i32, w: u32) { self.out.code[i as usize] = w }
    fn emit(&mut self, w: u32, line: u32) -> Answer<i32> {
        let (jpc, pc) = (std::mem::replace(&mut self.jpc, NO_JUMP), self.pc());
        self.patch_list_aux(jpc, pc, NO_REG, pc);
        if self.out.code.len() >= self.most_words { return Err(13); }
        self.out.code.push(w);
        self.out.lines.push(line);
        Ok(pc)
    }
    fn emit_nil(&mut self, reg: u32, line: u32) -> Answer<()> {
        if self.pc() > self.last_target {
            if self.pc() == 0 { return Ok(()); }
            let before = self.word(self.pc() - 1);
            if op(before) == LOADNIL && get_a(before) <= reg && reg <= get_b(before) + 1 {
                if reg > get_b(before) { self.change(self.pc() - 1, set_b(before, reg)) }
                return Ok(());
            }
        }
        self.emit(abc(LOADNIL, reg, reg, 0), line).map(|_| ())
    }
    fn emit_jump(&mut self, line: u32) -> Answer<i32> {
        let jpc = std::mem::replace(&mut self.jpc, NO_JUMP);
        // difference 1
        self.remove_values(jpc);
        let pc = self.emit(abx(JMP, 0, 131_070), line)?;
        Ok(self.concat(pc, jpc))
    }
    fn patch_jump(&mut self, pc: i32, target: i32) { let w = self.word(pc); self.change(pc, w & 0x3fff | ((target - pc - 1 + 131_071) as u32) << 14) }
    fn target(&self, pc: i32) -> i32 { match (self.word(pc) >> 14) as i32 - 131_071 { NO_JUMP => NO_JUMP, offset => pc + 1 + offset } }
    fn concat(&mut self, l1: i32, l2: i32) -> i32 {
        if l2 == NO_JUMP { return l1; }
        if l1 == NO_JUMP { return l2; }
        let mut last = l1;
        while self.target(last) != NO_JUMP { last = self.target(last) }
        self.patch_jump(last, l2);
        l1
    }
    fn patch_to_here(&mut self, list: i32) { self.jpc = self.concat(self.jpc, list) }
    fn control(&self, pc: i32) -> i32 { if pc >= 1 && (EQ..=TESTSET).contains(&op(self.word(pc - 1))) { pc - 1 } else { pc } }
    fn need_value(&self, mut list: i32) -> bool {
        while list != NO_JUMP {
            if op(self.word(self.control(list))) != TESTSET { return true; }
            list = self.target(list);
        }
        false
    }
    fn patch_test_reg(&mut self, node: i32, reg: u32) -> bool {
        let k = self.control(node);
        let w = self.word(k);
        if op(w) != TESTSET { return false; }
        self.change(k, if reg != NO_REG && reg != get_b(w) { set_a(w, reg) } else { abc(TEST, get_b(w), 0, get_c(w)) });
        true
    }
    fn remove_values(&mut self, mut list: i32) { while list != NO_JUMP { self.patch_test_reg(list, NO_REG); list = self.target(list) } }
    fn patch_list_aux(&mut self, mut list: i32, value_target: i32, reg: u32, other_target: i32) {
        while list != NO_JUMP {
            let next = self.target(list);
            let target = if self.patch_test_reg(list, reg) { value_target } else { other_target };
            self.patch_jump(list, target);
            list = next;
        }
    }
    fn get_label(&mut self) -> i32 { self.last_target = self.pc(); self.pc() }

    // ---- constants, registers
    fn constant(&mut self, k: Constant<'a>) -> Answer<u32> {
        if let Some(i) = self.index.get(&k) { return Ok(*i); }
        let i = self.out.consts.len();
        if i >= self.most_constants { return Err(11); }
        if self.most_text - self.out.pool.len() < k.2.len() { return Err(12); }
        self.out.consts.push((k.0, if k.0 == 4 { (self.out.pool.len() << 16 | k.2.len()) as u64 } else { k.1 }));
        self.out.pool.extend_from_slice(k.2);
        self.index.insert(k, i as u32);
        Ok(i as u32)
    }
    fn text(&mut self, i: usize) -> Answer<Expr> { let t = self.chunk.text(i); Ok(Expr::new(Kind::K, self.constant((4, 0, t))? as i32)) }
    fn reserve(&mut self, n: u32) -> Answer<()> {
        if self.free_reg + n > 250 { return Err(10); }
        self.free_reg += n;
        self.out.frame = self.out.frame.max(self.free_reg);
        Ok(())
    }
    fn free(&mut self, reg: u32) { if reg < 256 && reg >= self.active && reg + 1 == self.free_reg { self.free_reg -= 1 } }
    fn free_expr(&mut self, e: &Expr) { if e.kind == Kind::NonReloc { self.free(e.info as u32) } }
    /// The higher register first (difference 2).
    fn free_both(&mut self, e1: &Expr, e2: &Expr) {
        let swap = e1.kind == Kind::NonReloc && e2.kind == Kind::NonReloc && e1.info > e2.info;
        let (a, b) = if swap { (e1, e2) } else { (e2, e1) };
        self.free_expr(a);
        self.free_expr(b);
    }

    // ---- discharge
    fn discharge_vars(&mut self, e: &mut Expr) -> Answer<()> {
        match e.kind {
            Kind::Local => e.kind = Kind::NonReloc,
            Kind::Global => *e = Expr { info: self.emit(abx(GETGLOBAL, 0, e.info as u32), self.line)?, kind: Kind::Relocable, ..*e },
            Kind::Indexed => {
                self.free(e.aux as u32);
                self.free(e.info as u32);
                *e = Expr { info: self.emit(abc(GETTABLE, 0, e.info as u32, e.aux as u32), self.line)?, kind: Kind::Relocable, ..*e };
            }
            Kind::Call => { let w = set_c(self.word(e.info), 2); self.change(e.info, w); *e = Expr { kind: Kind::NonReloc, info: get_a(w) as i32, ..*e } }
            Kind::VarArg => { let w = set_b(self.word(e.info), 2); self.change(e.info, w); e.kind = Kind::Relocable }
            _ => {}
        }
        Ok(())
    }
    fn discharge2reg(&mut self, e: &mut Expr, reg: u32) -> Answer<()> {
        self.discharge_vars(e)?;
        let line = self.line;
        match e.kind {
            Kind::Nil => self.emit_nil(reg, line)?,
            Kind::True | Kind::False => { self.emit(abc(LOADBOOL, reg, u32::from(e.kind == Kind::True), 0), line)?; }
            Kind::K => { self.emit(abx(LOADK, reg, e.info as u32), line)?; }
            Kind::KNum => { let k = self.constant((3, e.number, &[]))?; self.emit(abx(LOADK, reg, k), line)?; }
            Kind::Relocable => { let w = self.word(e.info); self.change(e.info, set_a(w, reg)) }
            Kind::NonReloc => if reg != e.info as u32 { self.emit(abc(MOVE, reg, e.info as u32, 0), line)?; },
            _ => return Ok(()),
        }
        *e = Expr { info: reg as i32, kind: Kind::NonReloc, ..*e };
        Ok(())
    }
    fn discharge2anyreg(&mut self, e: &mut Expr) -> Answer<()> {
        if e.kind == Kind::NonReloc { return Ok(()); }
        self.reserve(1)?;
        self.discharge2reg(e, self.free_reg - 1)
    }
    fn exp2reg(&mut self, e: &mut Expr, reg: u32) -> Answer<()> {
        let line = self.line;
        self.discharge2reg(e, reg)?;
        if e.kind == Kind::Jmp { e.t = self.concat(e.t, e.info) }
        if e.has_jumps() {
            let (mut no, mut yes) = (NO_JUMP, NO_JUMP);
            if self.need_value(e.t) || self.need_value(e.f) {
                let over = if e.kind == Kind::Jmp { NO_JUMP } else { self.emit_jump(line)? };
                self.get_label();
                no = self.emit(abc(LOADBOOL, reg, 0, 1), line)?;
                self.get_label();
                yes = self.emit(abc(LOADBOOL, reg, 1, 0), line)?;
                self.patch_to_here(over);
            }
            let end = self.get_label();
            self.patch_list_aux(e.f, end, reg, if no == NO_JUMP { end } else { no });
            self.patch_list_aux(e.t, end, reg, if yes == NO_JUMP { end } else { yes });
        }
        *e = Expr { info: reg as i32, ..Expr::new(Kind::NonReloc, 0) };
        Ok(())
    }
    fn exp2nextreg(&mut self, e: &mut Expr) -> Answer<()> {
        self.discharge_vars(e)?;
        self.free_expr(e);
        self.reserve(1)?;
        self.exp2reg(e, self.free_reg - 1)
    }
    fn exp2anyreg(&mut self, e: &mut Expr) -> Answer<u32> {
        self.discharge_vars(e)?;
        if e.kind == Kind::NonReloc && !e.has_jumps() { return Ok(e.info as u32); }
        if e.kind == Kind::NonReloc && e.info as u32 >= self.active { self.exp2reg(e, e.info as u32)? } else { self.exp2nextreg(e)? }
        Ok(e.info as u32)
    }
    fn exp2val(&mut self, e: &mut Expr) -> Answer<()> { if e.has_jumps() { self.exp2anyreg(e).map(|_| ()) } else { self.discharge_vars(e) } }
    fn exp2rk(&mut self, e: &mut Expr) -> Answer<u32> {
        self.exp2val(e)?;
        let listed = match e.kind {
            Kind::Nil | Kind::False | Kind::True if self.out.consts.len() <= 255 => Some(self.constant((match e.kind { Kind::Nil => 0, Kind::False => 1, _ => 2 }, 0, &[]))?),
            Kind::K => Some(e.info as u32),
            Kind::KNum => Some(self.constant((3, e.number, &[]))?),
            _ => None,
        };
        match listed {
            Some(k) if k <= 255 => { *e = Expr { kind: Kind::K, info: k as i32, ..*e }; Ok(k | 256) }
            _ => self.exp2anyreg(e),
        }
    }

    // ---- conditions
    fn goiftrue(&mut self, e: &mut Expr, line: u32) -> Answer<()> {
        self.discharge_vars(e)?;
        let jump = match e.kind {
            Kind::K | Kind::KNum | Kind::True => NO_JUMP,
            Kind::False => self.emit_jump(line)?,
            Kind::Jmp => { self.invert(e); e.info }
            _ => self.jumponcond(e, false, line)?,
        };
        e.f = self.concat(e.f, jump);
        self.patch_to_here(e.t);
        e.t = NO_JUMP;
        Ok(())
    }
    fn goiffalse(&mut self, e: &mut Expr, line: u32) -> Answer<()> {
        self.discharge_vars(e)?;
        let jump = match e.kind {
            Kind::Nil | Kind::False => NO_JUMP,
            Kind::True => self.emit_jump(line)?,
            Kind::Jmp => e.info,
            _ => self.jumponcond(e, true, line)?,
        };
        e.t = self.concat(e.t, jump);
        self.patch_to_here(e.f);
        e.f = NO_JUMP;
        Ok(())
    }
    fn invert(&mut self, e: &Expr) { let k = self.control(e.info); let w = self.word(k); self.change(k, set_a(w, u32::from(get_a(w) == 0))) }
    fn jumponcond(&mut self, e: &mut Expr, cond: bool, line: u32) -> Answer<i32> {
        if e.kind == Kind::Relocable && op(self.word(e.info)) == NOT {
            let w = self.word(e.info);
            self.out.code.pop();
            self.out.lines.pop();
            self.emit(abc(TEST, get_b(w), 0, u32::from(!cond)), line)?;
            return self.emit_jump(line);
        }
        self.discharge2anyreg(e)?;
        self.free_expr(e);
        self.emit(abc(TESTSET, NO_REG, e.info as u32, u32::from(cond)), line)?;
        self.emit_jump(line)
    }
    fn code_not(&mut self, e: &mut Expr, line: u32) -> Answer<()> {
        self.discharge_vars(e)?;
        match e.kind {
            Kind::Nil | Kind::False => e.kind = Kind::True,
            Kind::K | Kind::KNum | Kind::True => e.kind = Kind::False,
            Kind::Jmp => self.invert(e),
            _ => {
                self.discharge2anyreg(e)?;
                self.free_expr(e);
                *e = Expr { info: self.emit(abc(NOT, 0, e.info as u32, 0), line)?, kind: Kind::Relocable, ..*e };
            }
        }
        (e.t, e.f) = (e.f, e.t);
        self.remove_values(e.f);
        self.remove_values(e.t);
        Ok(())
    }

    // ---- operators
    fn code_arith(&mut self, o: u32, e1: &mut Expr, e2: &mut Expr, line: u32) -> Answer<()> {
        // difference 3: ^ isn't folded
        if e1.is_numeral() && e2.is_numeral() && o != POW && let Some(n) = fold(o, e1.number, e2.number) { e1.number = n; return Ok(()); }
        let (b, c) = if o == UNM || o == LEN { (self.exp2anyreg(e1)?, 0) } else { let c = self.exp2rk(e2)?; (self.exp2rk(e1)?, c) };
        self.free_both(e1, e2);
        *e1 = Expr { info: self.emit(abc(o, 0, b, c), line)?, kind: Kind::Relocable, ..*e1 };
        Ok(())
    }
    fn code_concat(&mut self, e1: &mut Expr, e2: &mut Expr, line: u32) -> Answer<()> {
        self.exp2val(e2)?;
        if e2.kind == Kind::Relocable && op(self.word(e2.info)) == CONCAT {
            self.free_expr(e1);
            let w = self.word(e2.info);
            self.change(e2.info, set_b(w, e1.info as u32));
            *e1 = Expr { kind: Kind::Relocable, info: e2.info, ..*e1 };
            return Ok(());
        }
        self.exp2nextreg(e2)?;
        self.free_expr(e2);
        self.free_expr(e1);
        *e1 = Expr { info: self.emit(abc(CONCAT, 0, e1.info as u32, e2.info as u32), line)?, kind: Kind::Relocable, ..*e1 };
        Ok(())
    }
    fn code_comp(&mut self, o: u32, holds: bool, e1: &mut Expr, e2: &mut Expr, line: u32) -> Answer<()> {
        // difference 2: a left numeral that needs a register comes after the right operand
        let late = e1.is_numeral() && match self.index.get(&(3, e1.number, &[][..])) { Some(i) => *i > 255, None => self.out.consts.len() >= 256 };
        let (b, c) = if late { let c = self.exp2rk(e2)?; (self.exp2rk(e1)?, c) } else { (self.exp2rk(e1)?, self.exp2rk(e2)?) };
        self.free_both(e1, e2);
        let (a, b, c) = if !holds && o != EQ { (1, c, b) } else { (u32::from(holds), b, c) };
        self.emit(abc(o, a, b, c), line)?;
        *e1 = Expr::new(Kind::Jmp, self.emit_jump(line)?);
        Ok(())
    }
    fn infix(&mut self, o: u8, e: &mut Expr, line: u32) -> Answer<()> {
        match o {
            13 => self.goiftrue(e, line),
            14 => self.goiffalse(e, line),
            6 => self.exp2nextreg(e),
            _ if e.is_numeral() => Ok(()),
            _ => self.exp2rk(e).map(|_| ()),
        }
    }
    fn postfix(&mut self, o: u8, e1: &mut Expr, e2: &mut Expr, line: u32) -> Answer<()> {
        match o {
            0..=5 => self.code_arith(ADD + u32::from(o), e1, e2, line),
            6 => self.code_concat(e1, e2, line),
            7 => self.code_comp(LT, true, e1, e2, line),
            8 => self.code_comp(LE, true, e1, e2, line),
            9 => self.code_comp(LT, false, e1, e2, line),
            10 => self.code_comp(LE, false, e1, e2, line),
            11 => self.code_comp(EQ, true, e1, e2, line),
            12 => self.code_comp(EQ, false, e1, e2, line),
            _ => {
                self.discharge_vars(e2)?;
                if o == 13 { e2.f = self.concat(e2.f, e1.f) } else { e2.t = self.concat(e2.t, e1.t) }
                *e1 = *e2;
                Ok(())
            }
        }
    }

    // ---- expressions
    fn expr(&mut self, i: usize) -> Answer<Expr> {
        let n = self.chunk.nodes[i];
        self.line = n.line;
        match n.kind {
            0 => return Ok(Expr::new(Kind::Nil, 0)),
            1 => return Ok(Expr::new(Kind::True, 0)),
            2 => return Ok(Expr::new(Kind::False, 0)),
            3 => return Ok(Expr::number(n.number)),
            4 => return self.text(i),
            5 => return Ok(Expr::new(Kind::VarArg, self.emit(abc(VARARG, 0, 1, 0), n.line)?)),
            6 => return match self.chunk.local(self.chunk.text(i)) { Some(l) => Ok(Expr::new(Kind::Local, l as i32)), None => Ok(Expr { kind: Kind::Global, ..self.text(i)? }) },
            _ => {}
        }
        let second = self.chunk.behind(i + 1);
        let mut e = self.expr(i + 1)?;
        match n.kind {
            7 => {
                self.infix(n.op, &mut e, self.line)?;
                let mut right = self.expr(second)?;
                self.postfix(n.op, &mut e, &mut right, self.line)?
            }
            8 => match n.op {
                1 => self.code_not(&mut e, self.line)?,
                // difference 6 needs nothing here: code_arith brings the operand of Unm to a register
                o => {
                    if o == 2 || e.kind == Kind::K { self.exp2anyreg(&mut e)?; }
                    self.code_arith(if o == 0 { UNM } else { LEN }, &mut e, &mut Expr::number(0), self.line)?
                }
            },
            9 | 10 => {
                self.exp2anyreg(&mut e)?;
                let mut key = if n.kind == 9 { self.expr(second)? } else { self.text(i)? };
                e = Expr { aux: self.exp2rk(&mut key)? as i32, kind: Kind::Indexed, ..e }
            }
            11 => {
                self.exp2anyreg(&mut e)?;
                let mut key = self.text(i)?;
                self.free_expr(&e);
                let func = self.free_reg;
                self.reserve(2)?;
                let rk = self.exp2rk(&mut key)?;
                self.emit(abc(SELF, func, e.info as u32, rk), self.line)?;
                self.free_expr(&key);
                e = self.arguments(i, func)?
            }
            12 => { self.exp2nextreg(&mut e)?; e = self.arguments(i, e.info as u32)? }
            _ => self.discharge_vars(&mut e)?,
        }
        Ok(e)
    }
    fn arguments(&mut self, i: usize, base: u32) -> Answer<Expr> {
        let line = self.line;
        let mut k = self.chunk.behind(i + 1);
        let mut open = false;
        for left in (0..self.chunk.nodes[i].arguments).rev() {
            let mut e = self.expr(k)?;
            k = self.chunk.behind(k);
            open = left == 0 && (e.kind == Kind::Call || e.kind == Kind::VarArg);
            if !open { self.exp2nextreg(&mut e)?; continue; }
            let w = self.word(e.info);
            if e.kind == Kind::Call { self.change(e.info, set_c(w, 0)); continue; }
            self.change(e.info, set_a(set_b(w, 0), self.free_reg));
            // difference 4: the refusal isn't dropped
            self.reserve(1)?
        }
        let b = if open { 0 } else { self.free_reg - base };
        let pc = self.emit(abc(CALL, base, b, 2), line)?;
        self.free_reg = base + 1;
        Ok(Expr::new(Kind::Call, pc))
    }
}

/// What a chunk that has the form gives in buffers of these lengths: the result, or the refusal of 9 to 13.
pub fn lower(chunk: &Chunk, z: &Sizes) -> Answer<Out> {
    if z.scratch < chunk.nodes.len() { return Err(9); }
    let locals = chunk.locals.len() as u32;
    let out = Out { code: Vec::new(), lines: Vec::new(), consts: Vec::new(), pool: Vec::new(), frame: 2 };
    let mut c = Compiler {
        chunk, out, index: HashMap::new(), free_reg: 0, active: locals, jpc: NO_JUMP, last_target: -1, line: 1,
        most_words: z.code.min(z.lines).min(131_071), most_constants: z.kinds.min(z.values).min(262_144), most_text: z.pool,
    };
    c.reserve(locals)?;
    let mut i = 0;
    for _ in 0..chunk.formulas {
        let mut e = c.expr(i)?;
        c.exp2nextreg(&mut e)?;
        i = chunk.behind(i);
    }
    c.emit(abc(RETURN, locals, chunk.formulas as u32 + 1, 0), c.line)?;
    Ok(c.out)
}
