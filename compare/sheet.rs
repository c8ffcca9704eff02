//! Sheets to compare on.

use std::borrow::Cow;

/// A text, and its lines: each from a start to before an end.
#[derive(Clone, Debug, Default, PartialEq, Eq)]
pub struct Sheet {
    pub text: Vec<u8>,
    pub starts: Vec<usize>,
    pub ends: Vec<usize>,
}

impl Sheet {
    pub fn new(text: &[u8], lines: &[(usize, usize)]) -> Self {
        let mut sheet = Sheet { text: text.to_vec(), ..Sheet::default() };
        sheet.cut(lines);
        sheet
    }

    /// A text of one line.
    pub fn line(text: &[u8]) -> Self {
        Sheet::new(text, &[(0, text.len())])
    }

    /// Each line of a text with its newline.
    pub fn by_newline(text: &[u8]) -> Self {
        let ends: Vec<usize> = (0..text.len()).filter(|&p| text[p] == b'\n' || p + 1 == text.len()).map(|p| p + 1).collect();
        let starts = std::iter::once(0).chain(ends.iter().copied()).take(ends.len()).collect();
        Sheet { text: text.to_vec(), starts, ends }
    }

    /// Sets the lines.
    pub fn cut(&mut self, lines: &[(usize, usize)]) {
        self.starts.clear();
        self.ends.clear();
        for &(start, end) in lines {
            self.starts.push(start);
            self.ends.push(end);
        }
    }

    /// Becomes a copy.
    pub fn copy(&mut self, of: &Sheet) {
        self.text.clone_from(&of.text);
        self.starts.clone_from(&of.starts);
        self.ends.clone_from(&of.ends);
    }

    pub fn lines(&self) -> impl Iterator<Item = (usize, usize)> + '_ {
        self.starts.iter().copied().zip(self.ends.iter().copied())
    }

    /// N: the bytes of all lines.
    pub fn fed(&self) -> usize {
        self.lines().map(|(start, end)| end.min(self.text.len()).saturating_sub(start)).sum()
    }

    /// The text, if it is UTF-8 and each line begins and ends between characters.
    pub fn characters(&self) -> Option<&str> {
        let text = std::str::from_utf8(&self.text).ok()?;
        self.lines().all(|(start, end)| text.is_char_boundary(start) && text.is_char_boundary(end)).then_some(text)
    }

    /// The text for the Rust. Where it is not of characters, the byte 1 stands for each that is not ASCII: both are of no class, so no rule
    /// of document 01 tells them apart.
    pub fn for_the_rust(&self) -> Cow<'_, str> {
        match self.characters() {
            Some(text) => Cow::Borrowed(text),
            None => Cow::Owned(self.text.iter().map(|&b| char::from(ascii(b))).collect()),
        }
    }

    /// Takes bytes out of the text; lines move along.
    pub fn take_out(&mut self, from: usize, n: usize) {
        self.text.drain(from..from + n);
        for p in self.starts.iter_mut().chain(&mut self.ends) {
            if *p > from {
                *p = p.saturating_sub(n).max(from);
            }
        }
    }

    /// Puts a byte into the text; lines move along.
    pub fn put_in(&mut self, at: usize, b: u8) {
        self.text.insert(at, b);
        for p in self.starts.iter_mut().chain(&mut self.ends) {
            *p = p.saturating_add(usize::from(*p > at));
        }
    }

    /// Smaller sheets that are nearly this one, one after another: without some lines, a start or an end, a cut, some bytes.
    pub fn smaller(&self) -> impl Iterator<Item = Sheet> + '_ {
        let (starts, ends) = (self.starts.len(), self.ends.len());
        let lines = starts.min(ends);
        let changed = |change: &dyn Fn(&mut Sheet)| {
            let mut less = self.clone();
            change(&mut less);
            less
        };
        let without_lines = parts(lines).map(move |(i, n)| {
            changed(&|s| {
                s.starts.drain(i..i + n);
                s.ends.drain(i..i + n);
            })
        });
        let without_half = parts(starts.max(ends) - lines).map(move |(i, n)| {
            let some = |s: &mut Sheet| drop(if starts > ends { &mut s.starts } else { &mut s.ends }.drain(lines + i..lines + i + n));
            changed(&some)
        });
        let without_cuts = parts(lines.saturating_sub(1)).map(move |(i, n)| {
            changed(&|s| {
                s.ends.drain(i..i + n);
                s.starts.drain(i + 1..i + 1 + n);
            })
        });
        let without_bytes = parts(self.text.len()).map(move |(p, n)| changed(&|s| s.take_out(p, n)));
        without_lines.chain(without_half).chain(without_cuts).chain(without_bytes)
    }
}

/// Parts of so many, as a place and a number: all, halves, quarters and so on; of up to 4096 also each single one and up to four.
fn parts(all: usize) -> impl Iterator<Item = (usize, usize)> {
    let few = all <= 4096;
    let large = std::iter::successors(Some(all), |n| Some(n / 2)).take_while(move |&n| n > if few { 4 } else { all / 64 });
    let small = (1..=4).rev().filter(move |&n| few && n <= all);
    large.chain(small).flat_map(move |n| (0..=all - n).step_by(if n > 4 { n / 2 } else { 1 }).map(move |p| (p, n)))
}

/// A byte, or 1 if it is not ASCII.
pub fn ascii(b: u8) -> u8 {
    if b.is_ascii() {
        b
    } else {
        1
    }
}
