//! Lines to compare on.

/// Xorshift: the same lines for the same seed.
pub struct Random(u64);

impl Random {
    pub fn new(seed: u64) -> Self {
        Random((seed ^ 0x9e37_79b9_7f4a_7c15).max(1))
    }

    pub fn next(&mut self) -> u64 {
        self.0 ^= self.0 << 13;
        self.0 ^= self.0 >> 7;
        self.0 ^= self.0 << 17;
        self.0.wrapping_mul(0x2545_f491_4f6c_dd1d)
    }

    pub fn below(&mut self, n: usize) -> usize {
        ((self.next() >> 32) * n as u64 >> 32) as usize
    }
}

/// Every byte that the lexer tells apart from others, with some that it does not.
pub const TELLING: &[u8] = b"\\[](){}*^=+~_'\"-!<|:`.\n \t\r\x0b\x0cab1@>$\xc3\xa9\x00";

/// Bytes that meet in longer tokens.
const RUNS: &[u8] = b"--`..}\\ \t\n{=*";

/// A line: any bytes, telling bytes, long runs, or text with a mark here and there.
pub fn line(r: &mut Random, out: &mut Vec<u8>) {
    out.clear();
    let n = match r.below(16) {
        0 => r.below(300),
        1..=3 => r.below(60),
        _ => r.below(20),
    };
    let sort = r.below(8);
    while out.len() < n {
        match sort {
            0 => out.push(r.next() as u8),
            1 | 2 | 3 => out.push(TELLING[r.below(TELLING.len())]),
            4 | 5 => {
                let b = RUNS[r.below(RUNS.len())];
                let most = if r.below(16) == 0 { 40 } else { 4 };
                let times = 1 + r.below(most);
                for _ in 0..times.min(n - out.len()) {
                    out.push(b);
                }
            }
            _ => {
                if r.below(4) == 0 {
                    out.push(TELLING[r.below(TELLING.len())]);
                } else {
                    out.push(b'a' + r.below(26) as u8);
                }
            }
        }
    }
}

/// A pattern of 32 answers: all no, all yes, every other one, or any.
pub fn pattern(r: &mut Random) -> u32 {
    match r.below(4) {
        0 => 0,
        1 => u32::MAX,
        2 => 0xaaaa_aaaa,
        _ => r.next() as u32,
    }
}

/// Every string over an alphabet, up to a length, shortest first; stops where the visitor says false. How many were visited.
pub fn strings(alphabet: &[u8], longest: usize, mut visit: impl FnMut(&[u8]) -> bool) -> u64 {
    let mut visited = 0;
    let mut places = vec![0; longest];
    let mut src = vec![alphabet[0]; longest];
    for n in 0..=longest {
        places[..n].fill(0);
        src[..n].fill(alphabet[0]);
        loop {
            visited += 1;
            if !visit(&src[..n]) {
                return visited;
            }
            let mut k = 0;
            while k < n && places[k] + 1 == alphabet.len() {
                places[k] = 0;
                src[k] = alphabet[0];
                k += 1;
            }
            if k == n {
                break;
            }
            places[k] += 1;
            src[k] = alphabet[places[k]];
        }
    }
    visited
}
