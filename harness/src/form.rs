//! The form of a chunk and refusals 1 to 8, written from document 01 alone: nothing here is shared with the lowering or with the oracle's reader.

/// A chunk with the form: the place of each node, and whether every name is UTF-8.
pub struct Formed { pub places: Vec<u32>, pub utf8: bool }

struct At<'a> { bytes: &'a [u8], at: usize, varargs: bool, formed: Formed }

impl At<'_> {
    fn byte(&mut self) -> Result<u8, u32> {
        let b = *self.bytes.get(self.at).ok_or(2u32)?;
        self.at += 1;
        Ok(b)
    }
    fn bytes(&mut self, n: usize) -> Result<(), u32> {
        if self.bytes.len() - self.at < n { return Err(2); }
        self.at += n;
        Ok(())
    }
    fn text(&mut self, is_name: bool) -> Result<(), u32> {
        let n = usize::from(self.byte()?) + 256 * usize::from(self.byte()?);
        self.bytes(n)?;
        if is_name && std::str::from_utf8(&self.bytes[self.at - n..self.at]).is_err() { self.formed.utf8 = false; }
        Ok(())
    }
    fn node(&mut self, nesting: u32) -> Result<(), u32> {
        if nesting == 201 { return Err(5); }
        let place = self.at as u32;
        let kind = self.byte()?;
        // the bits that the kind needs, beside bit 0
        let needs = match kind {
            0 | 1 | 2 | 5 | 9 | 13 => 0,
            3 => 0b00010,
            4 | 6 | 10 => 0b00100,
            7 | 8 => 0b01000,
            11 => 0b10100,
            12 => 0b10000,
            _ => return Err(4),
        };
        let map = self.byte()?;
        if map != needs && map != needs + 1 { return Err(3); }
        if map % 2 == 1 { self.bytes(4)?; }
        if needs & 0b00010 != 0 { self.bytes(8)?; }
        if needs & 0b00100 != 0 { self.text(kind != 4)?; }
        let operator = if needs & 0b01000 != 0 { self.byte()? } else { 0 };
        let arguments = if needs & 0b10000 != 0 { self.byte()? } else { 0 };
        if kind == 7 && operator > 14 || kind == 8 && operator > 2 { return Err(4); }
        if kind == 5 && !self.varargs { return Err(7); }
        self.formed.places.push(place);
        let children = match kind { 7 | 9 => 2, 8 | 10 | 13 => 1, 11 | 12 => 1 + u32::from(arguments), _ => 0 };
        for _ in 0..children { self.node(nesting + 1)?; }
        Ok(())
    }
}

pub fn check(bytes: &[u8]) -> Result<Formed, u32> {
    if bytes.len() > 1_048_576 { return Err(1); }
    let mut a = At { bytes, at: 0, varargs: false, formed: Formed { places: Vec::new(), utf8: true } };
    let map = a.byte()?;
    if map >= 4 { return Err(3); }
    a.varargs = map >= 2;
    if map % 2 == 1 {
        let locals = a.byte()?;
        if locals > 200 { return Err(6); }
        for _ in 0..locals { a.text(true)?; }
    }
    for _ in 0..a.byte()? { a.node(1)?; }
    if a.at != bytes.len() { return Err(8); }
    Ok(a.formed)
}
