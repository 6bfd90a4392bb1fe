//! The form of a chunk, and its nodes as a list in reading order.

/// A node; `end` is the index of the first node behind its sub-expressions.
#[derive(Clone, Copy, Debug)]
pub struct Node { pub kind: u8, pub op: u8, pub arguments: u8, pub line: u32, pub number: u64, pub text: (usize, usize), pub place: u32, pub end: usize }

/// Names are a start and a length in the bytes.
pub struct Chunk<'a> { pub bytes: &'a [u8], pub locals: Vec<(usize, usize)>, pub varargs: bool, pub formulas: usize, pub nodes: Vec<Node> }

impl<'a> Chunk<'a> {
    pub fn bytes_of(&self, t: (usize, usize)) -> &'a [u8] { &self.bytes[t.0..t.0 + t.1] }
    pub fn text(&self, i: usize) -> &'a [u8] { self.bytes_of(self.nodes[i].text) }
    /// The node behind node i and its sub-expressions: of a first sub-expression, the second.
    pub fn behind(&self, i: usize) -> usize { self.nodes[i].end }
    /// Of equal names the last local.
    pub fn local(&self, name: &[u8]) -> Option<usize> { self.locals.iter().rposition(|l| self.bytes_of(*l) == name) }
}

/// The bits of the map that a kind has, but for the line's.
fn fields(kind: u8) -> u8 { match kind { 3 => 2, 4 | 6 | 10 => 4, 7 | 8 => 8, 11 => 4 | 16, 12 => 16, _ => 0 } }

fn children(kind: u8, arguments: u8) -> usize { match kind { 7 | 9 => 2, 8 | 10 | 13 => 1, 11 | 12 => 1 + usize::from(arguments), _ => 0 } }

struct Reader<'a> { at: usize, line: u32, chunk: Chunk<'a> }

impl Reader<'_> {
    fn number(&mut self, n: usize) -> Result<u64, u32> {
        let mut v = 0;
        for i in 0..n { v |= u64::from(self.byte()?) << (8 * i) }
        Ok(v)
    }
    fn byte(&mut self) -> Result<u8, u32> {
        let b = *self.chunk.bytes.get(self.at).ok_or(2u32)?;
        self.at += 1;
        Ok(b)
    }
    fn text(&mut self) -> Result<(usize, usize), u32> {
        let n = self.number(2)? as usize;
        let start = self.at;
        if self.chunk.bytes.len() - start < n { return Err(2); }
        self.at += n;
        Ok((start, n))
    }
    fn node(&mut self, nesting: u32) -> Result<(), u32> {
        if nesting == 201 { return Err(5); }
        let place = self.at as u32;
        let kind = self.byte()?;
        if kind > 13 { return Err(4); }
        let map = self.byte()?;
        if map & !1 != fields(kind) { return Err(3); }
        let me = self.chunk.nodes.len();
        let mut n = Node { kind, op: 0, arguments: 0, line: self.line, number: 0, text: (0, 0), place, end: 0 };
        if map & 1 != 0 { n.line = self.number(4)? as u32 }
        if map & 2 != 0 { n.number = self.number(8)? }
        if map & 4 != 0 { n.text = self.text()? }
        if map & 8 != 0 { n.op = self.byte()? }
        if map & 16 != 0 { n.arguments = self.byte()? }
        if kind == 7 && n.op > 14 || kind == 8 && n.op > 2 { return Err(4); }
        if kind == 5 && !self.chunk.varargs { return Err(7); }
        self.line = n.line;
        self.chunk.nodes.push(n);
        for _ in 0..children(kind, n.arguments) { self.node(nesting + 1)? }
        self.chunk.nodes[me].end = self.chunk.nodes.len();
        Ok(())
    }
}

/// The chunk, or the refusal of 1 to 8.
pub fn form(bytes: &[u8]) -> Result<Chunk<'_>, u32> {
    if bytes.len() > 1_048_576 { return Err(1); }
    let mut r = Reader { at: 0, line: 1, chunk: Chunk { bytes, locals: Vec::new(), varargs: false, formulas: 0, nodes: Vec::new() } };
    let map = r.byte()?;
    if map & !3 != 0 { return Err(3); }
    if map & 1 != 0 {
        let n = r.byte()?;
        if n > 200 { return Err(6); }
        for _ in 0..n { let t = r.text()?; r.chunk.locals.push(t) }
    }
    r.chunk.varargs = map & 2 != 0;
    r.chunk.formulas = usize::from(r.byte()?);
    for _ in 0..r.chunk.formulas { r.node(1)? }
    if r.at != bytes.len() { return Err(8); }
    Ok(r.chunk)
}
