//! The proved lowering, called as C would call it.

unsafe extern "C" {
    fn fuchsiarasp_lower(
        chunk: *const u8, chunk_len: usize,
        code: *mut u32, code_len: usize,
        lines: *mut u32, lines_len: usize,
        kinds: *mut u8, kinds_len: usize,
        values: *mut u64, values_len: usize,
        pool: *mut u8, pool_len: usize,
        scratch: *mut u32, scratch_len: usize,
        counts: *mut u64, counts_len: usize,
    ) -> u32;
}

#[derive(Clone, Copy, PartialEq, Eq, Debug)]
pub struct Sizes { pub code: usize, pub lines: usize, pub kinds: usize, pub values: usize, pub pool: usize, pub scratch: usize, pub counts: usize }

impl Sizes {
    /// What the program `weavelist` lends.
    pub const WEAVELIST: Sizes = Sizes { code: 8192, lines: 8192, kinds: 2048, values: 2048, pool: 32_768, scratch: 16_384, counts: 4 };
}

pub struct Buffers { pub code: Vec<u32>, pub lines: Vec<u32>, pub kinds: Vec<u8>, pub values: Vec<u64>, pub pool: Vec<u8>, pub scratch: Vec<u32>, pub counts: Vec<u64> }

/// Numbers behind each lent part, which must stay as they are.
const GUARD: usize = 4;

fn garbage<T: Copy>(v: &mut Vec<T>, n: usize, g: T) {
    if v.len() < n + GUARD { v.resize(n + GUARD, g); }
    v[..n + GUARD].fill(g);
}

fn kept<T: PartialEq>(v: &[T], n: usize, g: &T) -> bool { v[n..n + GUARD].iter().all(|x| x == g) }

impl Buffers {
    pub fn new(z: &Sizes) -> Buffers {
        Buffers { code: vec![0; z.code], lines: vec![0; z.lines], kinds: vec![0; z.kinds], values: vec![0; z.values], pool: vec![0; z.pool], scratch: vec![0; z.scratch], counts: vec![0; z.counts] }
    }

    pub fn sizes(&self) -> Sizes {
        Sizes { code: self.code.len(), lines: self.lines.len(), kinds: self.kinds.len(), values: self.values.len(), pool: self.pool.len(), scratch: self.scratch.len(), counts: self.counts.len() }
    }

    /// 0, or the number of the refusal; all of each buffer is lent.
    pub fn lower(&mut self, chunk: &[u8]) -> u32 {
        let z = self.sizes();
        self.lower_part(chunk, &z)
    }

    fn lower_part(&mut self, chunk: &[u8], z: &Sizes) -> u32 {
        let (code, lines, kinds, values) = (&mut self.code[..z.code], &mut self.lines[..z.lines], &mut self.kinds[..z.kinds], &mut self.values[..z.values]);
        let (pool, scratch, counts) = (&mut self.pool[..z.pool], &mut self.scratch[..z.scratch], &mut self.counts[..z.counts]);
        // each pointer and length is a slice's, and no two slices overlap
        unsafe {
            fuchsiarasp_lower(
                chunk.as_ptr(), chunk.len(),
                code.as_mut_ptr(), code.len(),
                lines.as_mut_ptr(), lines.len(),
                kinds.as_mut_ptr(), kinds.len(),
                values.as_mut_ptr(), values.len(),
                pool.as_mut_ptr(), pool.len(),
                scratch.as_mut_ptr(), scratch.len(),
                counts.as_mut_ptr(), counts.len(),
            )
        }
    }

    /// The same in parts of these lengths, full of garbage before. Err where a number behind a part was written.
    pub fn lower_garbage(&mut self, chunk: &[u8], z: &Sizes) -> Result<u32, String> {
        garbage(&mut self.code, z.code, 0xdead_beef);
        garbage(&mut self.lines, z.lines, 0xfeed_f00d);
        garbage(&mut self.kinds, z.kinds, 0xa5);
        garbage(&mut self.values, z.values, 0x5a5a_0123_4567_89ab);
        garbage(&mut self.pool, z.pool, 0xc3);
        garbage(&mut self.scratch, z.scratch, 0x1234_5678);
        garbage(&mut self.counts, z.counts, u64::MAX);
        let r = self.lower_part(chunk, z);
        let same = kept(&self.code, z.code, &0xdead_beef) && kept(&self.lines, z.lines, &0xfeed_f00d) && kept(&self.kinds, z.kinds, &0xa5) && kept(&self.values, z.values, &0x5a5a_0123_4567_89ab)
            && kept(&self.pool, z.pool, &0xc3) && kept(&self.scratch, z.scratch, &0x1234_5678) && kept(&self.counts, z.counts, &u64::MAX);
        if same { Ok(r) } else { Err("a number behind a lent buffer was written".into()) }
    }
}
