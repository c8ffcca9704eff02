//! Random sheets: any text cut anyhow, shapes that such a text seldom has, braces, marked-up ones, and damaged copies of these.

use crate::mivurakol::LONGEST_RUN;
use crate::random::{Random, TELLING};
use crate::sheet::Sheet;

/// What random texts are made of.
const PIECES: &[&str] = &[
    "a", "b", "é", "€", " ", "  ", "\t", "\n", "\r\n", "\x0b", "\x0c", "\\", "\\\\", "\\\n", "\\ \n", "\\ ", "$", "$$", "\\$", "`", "``", "```",
    " `", "` ", " `` ", "$`", "$$`", "{=", "=}", "{=h}", "`{=h}", "[", "]", "(", ")", "![", "](", "][", "[]", "[a]", "[a](b)", "[a][b]",
    "[a][]", "[^", "[^a]", "^}", "<", ">", "<a:b>", "<a@b", ":", ":a:", "::", "@", "*", "_", "^", "~", "{*", "*}", "{_", "_}", "{^", "{~",
    "~}", "{-", "-}", "{+", "+}", "=", "+", "!", "|", "'", "\"", "{'", "'}", "{\"", "\"}", "-", "--", "---", "-----", ".", "..", "...", "....",
    "}", "#", "text", "\0", "{", "%",
];

/// What stands in, around and before attribute blocks: parts of them, marks that a brace follows or that it is inside of, and scans ahead.
const BRACES: &[&str] = &[
    "{", "{", "{", "}", "{}", "{ ", " }", "{.", "{.a", "{.a}", "{#", "{#a", "{#b-c}", "{a", "{a}", "{a=", "{a=b", "{a=b}", "{a=\"", "{a=\"b",
    "\"", "\"}", "\" }", "\\\"", "\\", "\\\\", "%", "{%", "%}", "{% a %}", "{%}", "=", ".", "#", ":", "_", "-", "a", "b1", "é", "$", " ", "  ",
    "\t", "\n", "\n", "\r\n", "\\\n", "*a*{", "_a_{", "`a`{", "[a]{", "[a](b){", "[a](b{", "[a][b{", "[a{][]", "![a]{", "\"a\"{", "'a'{",
    "{*a*}{", "{=a=}{", "`{", "`", "``", "*", "'", "[", "]", "](", "][", ")", "<a{:b>", "<", ":a{", "[^a{]", "[^", "`a`{=b}{", "`a`{=b{", "\\{",
    "door 12", "R-07",
];

/// What stands in a block, most of it rightly.
const ATTRIBUTES: &[&str] = &[
    ".a", ".b-c", "#d", "#e:f_", "g=h", "i_=1", "j=\"k\"", "l=\"m\nn\"", "o=\"\\\"\"", "p=\"}{\"", "q=\"\\\n\"", "r=\"\n\\\"", "s=\"é\"", "%t%",
    "%u\nv%", "%", "%%", "%w{", "x", "y=", "z=\"", "=", ".", "#", "é",
];

/// Blanks between these, and one that is none.
const BLANKS: &[&str] = &[" ", " ", " ", "\n", "\t", "\r\n", "  ", "", "\x0b", "\x0c"];

/// How far a text goes: mostly short, at times to the longest run and beyond.
fn length(r: &mut Random) -> usize {
    match r.below(64) {
        0 => r.below(700),
        1..=4 => r.below(150),
        5..=20 => r.below(50),
        _ => r.below(20),
    }
}

/// A text: any pieces, a few pieces over and over, long runs, or any bytes.
pub fn text(r: &mut Random, out: &mut Vec<u8>) {
    out.clear();
    let n = length(r);
    let sort = r.below(16);
    let few: Vec<&str> = (0..2 + r.below(6)).map(|_| PIECES[r.below(PIECES.len())]).collect();
    let links = ["[", "]", "](", "][", ")", "\n", "a", " ", "![", "`", "\\", "[]", "*", "..."];
    let quiet = ["`", "``", " ", "\n", "\\", "a", "$", "{=h}", "  ", "\\`", "`` ", " `", "=", "."];
    while out.len() < n {
        let piece = match sort {
            0..=2 => PIECES[r.below(PIECES.len())],
            3..=7 => few[r.below(few.len())],
            8..=10 => links[r.below(links.len())],
            11..=12 => quiet[r.below(quiet.len())],
            13 => {
                let b = b"[*_`-.'$"[r.below(8)];
                let times = 1 + if r.below(4) == 0 { LONGEST_RUN - 5 + r.below(10) } else { r.below(5) };
                out.extend(std::iter::repeat_n(b, times));
                few[r.below(few.len())]
            }
            14 => {
                out.push(telling(r));
                ""
            }
            _ => {
                out.push(r.next() as u8);
                ""
            }
        };
        out.extend(piece.as_bytes());
    }
    // A brace anywhere.
    if r.below(20) == 0 {
        let at = r.below(out.len() + 1);
        out.insert(at, b'{');
    }
}

/// A byte that some rule tells apart.
fn telling(r: &mut Random) -> u8 {
    match r.below(12) {
        0 => b"{}#%.=\""[r.below(7)],
        _ => TELLING[r.below(TELLING.len())],
    }
}

/// An attribute block, or nearly one: some of them do not end, and in some a byte is another.
fn block(r: &mut Random, out: &mut Vec<u8>) {
    let start = out.len();
    out.push(b'{');
    out.extend(BLANKS[r.below(BLANKS.len())].as_bytes());
    for _ in 0..r.below(5) {
        out.extend(ATTRIBUTES[r.below(ATTRIBUTES.len())].as_bytes());
        out.extend(BLANKS[r.below(BLANKS.len())].as_bytes());
    }
    if r.below(4) != 0 {
        out.push(b'}');
    }
    if r.below(3) == 0 {
        let at = start + r.below(out.len() - start);
        out[at] = telling(r);
    }
}

/// A text around braces: any pieces, a few over and over, or blocks between other pieces.
pub fn braces(r: &mut Random, out: &mut Vec<u8>) {
    out.clear();
    let n = length(r);
    let sort = r.below(8);
    let few: Vec<&str> = (0..2 + r.below(5)).map(|_| BRACES[r.below(BRACES.len())]).collect();
    while out.len() < n {
        let piece = match sort {
            0..=1 => BRACES[r.below(BRACES.len())],
            2..=5 => few[r.below(few.len())],
            _ if r.below(3) == 0 => {
                block(r, out);
                ""
            }
            6 => BRACES[r.below(BRACES.len())],
            _ => PIECES[r.below(PIECES.len())],
        };
        out.extend(piece.as_bytes());
    }
}

/// Lines with a block that is open at their ends: touching, or with bytes between them that would close or break it.
fn open_blocks(r: &mut Random, sheet: &mut Sheet) {
    let Sheet { text, starts, ends } = sheet;
    text.clear();
    starts.clear();
    ends.clear();
    starts.push(0);
    let before = ["", "a", "*a*", "`a`", "[a](b", "[a][", " ", "{", "}", "\"", "`"];
    let open = ["{", "{ ", "{.a", "{.a ", "{#a", "{a", "{a=", "{a=b", "{a=\"", "{a=\"b", "{a=\"\\", "{%", "{% a", "{%\n"];
    let between = ["}", "\"", "\"}", "%", "%}", "\\", "> ", "a", "{", "\n", "é"];
    let behind = ["", "}", "}", "\"}", "\"}", "%}", " }", "a}", "=b}", "a", "\"", "\\\"}", "\n", ")", "]"];
    for _ in 0..1 + r.below(4) {
        text.extend(before[r.below(before.len())].as_bytes());
        text.extend(open[r.below(open.len())].as_bytes());
        text.extend(["", "\n", "\n", " ", "\r\n"][r.below(5)].as_bytes());
        for _ in 0..1 + r.below(2) {
            ends.push(text.len());
            if r.below(3) != 0 {
                text.extend(between[r.below(between.len())].as_bytes());
            }
            starts.push(text.len());
        }
        text.extend(behind[r.below(behind.len())].as_bytes());
    }
    ends.push(text.len());
}

/// Lines of a text: one, one for each newline, or any, touching or with gaps, some of them empty.
pub fn cut(r: &mut Random, sheet: &mut Sheet) {
    let Sheet { text, starts, ends } = sheet;
    starts.clear();
    ends.clear();
    let mut push = |start: usize, end: usize| {
        starts.push(start);
        ends.push(end);
        starts.len()
    };
    let n = text.len();
    let whole = |p: usize| p == n || text[p] & 0xc0 != 0x80;
    let sort = r.below(8);
    if sort < 2 {
        push(0, n);
        return;
    }
    let gaps = sort % 2 == 0;
    let mut p = 0;
    while p < n {
        if gaps && r.below(2) == 0 {
            p = (p + r.below(4)).min(n);
            while !whole(p) {
                p += 1;
            }
        }
        let mut e = p;
        if sort < 5 {
            while e < n && (e == p || text[e - 1] != b'\n') {
                e += 1;
            }
        } else {
            e = (p + r.below(12)).min(n);
        }
        if r.below(16) == 0 {
            e = (p + r.below(3)).min(n);
        }
        while !whole(e) {
            e += 1;
        }
        let lines = push(p, e);
        p = e;
        if lines > 40 {
            break;
        }
    }
    if r.below(4) == 0 {
        push(n, n);
    }
}

/// What opens and closes: first those that nest in one another.
const PAIRS: &[(&str, &str)] = &[
    ("{*", "*}"), ("{_", "_}"), ("{^", "^}"), ("{~", "~}"), ("{=", "=}"), ("{-", "-}"), ("{+", "+}"), ("[", "](b)"), ("[", "][b]"), ("![", "](b)"),
    ("![", "][]"), ("*", "*"), ("_", "_"), ("^", "^"), ("~", "~"), ("'", "'"), ("\"", "\""), ("{'", "'}"), ("{\"", "\"}"), ("[", "]"), ("[a](", ")"),
];

/// Containers in one another: all of them closed, or any, some of them left open.
fn nested(r: &mut Random, out: &mut Vec<u8>) {
    out.clear();
    let most = [3, 3, 3, 6, 6, 12, 30, 120][r.below(8)];
    let (pairs, loose) = if r.below(2) == 0 { (11, false) } else { (PAIRS.len(), true) };
    let between = ["a", "a", "b", "\n", "", " ", "-", "`"];
    let mut open = Vec::new();
    for _ in 0..1 + r.below(most) {
        let (enter, exit) = PAIRS[r.below(pairs)];
        out.extend(enter.as_bytes());
        out.extend(between[r.below(if loose { 8 } else { 4 })].as_bytes());
        open.push(exit);
    }
    while let Some(exit) = open.pop() {
        if loose && r.below(8) == 0 {
            continue;
        }
        out.extend(exit.as_bytes());
        out.extend(between[r.below(if loose { 8 } else { 4 })].as_bytes());
    }
}

/// Lengths of runs of backticks: most of them around the longest.
const RUNS: [usize; 10] =
    [1, 2, LONGEST_RUN - 1, LONGEST_RUN, LONGEST_RUN, LONGEST_RUN + 1, LONGEST_RUN + 1, LONGEST_RUN + 2, 2 * LONGEST_RUN + 1, 2 * LONGEST_RUN + 2];

/// Runs of backticks of a few lengths, so that many close.
fn backticks(r: &mut Random, out: &mut Vec<u8>) {
    out.clear();
    let mut len = || RUNS[r.below(RUNS.len())];
    let lens = [len(), len()];
    let between = ["a", " ", "\n", "\\", "$", "{=h}", "a ", " a", "  ", "*"];
    for _ in 0..1 + r.below(6) {
        out.extend(between[r.below(between.len())].as_bytes());
        out.extend(std::iter::repeat_n(b'`', lens[r.below(2)]));
    }
    out.extend(between[r.below(between.len())].as_bytes());
}

/// What stands behind closing runs: backslashes, and what they may escape.
const BEHIND: &[&str] = &[
    "`", "`", "`a`", "``", "`` a ``", "\\", "\\", "\\*", "*", "*b*", "\\{", "{", "}", "{.a}", "\\`", "{=h}", "\\{=h}", "\\\\", "\\ ", "\\\n", " ", "\n", "a", "$",
    "$`", "[", "](b)", "\\]", "_",
];

/// A sheet of backticks and backslashes; none is damaged.
pub fn behind_runs(r: &mut Random, sheet: &mut Sheet) -> bool {
    let out = &mut sheet.text;
    out.clear();
    let few: Vec<&str> = (0..2 + r.below(6)).map(|_| BEHIND[r.below(BEHIND.len())]).collect();
    let any = r.below(3) == 0;
    for _ in 0..1 + r.below(16) {
        let piece = if any { BEHIND[r.below(BEHIND.len())] } else { few[r.below(few.len())] };
        out.extend(piece.as_bytes());
    }
    cut(r, sheet);
    false
}

/// Lines that end behind dollars, and begin with backticks: touching, or with a byte between them.
fn dollars(r: &mut Random, sheet: &mut Sheet) {
    let Sheet { text, starts, ends } = sheet;
    text.clear();
    starts.clear();
    ends.clear();
    starts.push(0);
    for _ in 0..1 + r.below(5) {
        for _ in 0..r.below(4) {
            text.extend(["a", "`", "``", " ", "\\", "\n", "*"][r.below(7)].as_bytes());
        }
        text.extend(["$", "$$", "$$$", "\\$", "a$"][r.below(5)].as_bytes());
        ends.push(text.len());
        if r.below(3) == 0 {
            text.push(b"$\\ a`\n"[r.below(6)]);
        }
        starts.push(text.len());
        text.extend(["`", "``", "$`", "`a`", "`{=h}"][r.below(5)].as_bytes());
    }
    ends.push(text.len());
}

/// A marked-up sheet while it is written.
struct Writer<'a> {
    r: &'a mut Random,
    sheet: &'a mut Sheet,
    /// What stands between two lines.
    gap: &'static str,
}

impl Writer<'_> {
    fn put(&mut self, s: &str) {
        self.sheet.text.extend(s.as_bytes());
    }

    fn of(&mut self, some: &[&str]) {
        let s = some[self.r.below(some.len())];
        self.put(s);
    }

    fn newline(&mut self) {
        self.of(&["\n", "\n", "\n", "\r\n", " \n", "\\\n"]);
        self.sheet.ends.push(self.sheet.text.len());
        self.put(self.gap);
        self.sheet.starts.push(self.sheet.text.len());
    }

    fn word(&mut self) {
        self.of(&["12", "R-07", "left", "x", "cabinet 4", "é", "door", "a b", "K1", "3.5 mm", "e.g.", "it's", "1--2", "and so on..."]);
    }

    /// Something that opens, more, and what closes it.
    fn around(&mut self, open: &str, close: &str, depth: usize) {
        self.put(open);
        self.content(depth);
        self.put(close);
    }

    fn destination(&mut self) {
        self.of(&["b", "u:x", "a/b.c", "b c", "*b*", "\\)", "", "b{c", "{b"]);
        if self.r.below(3) == 0 {
            self.newline();
            self.of(&["c", "", "d e", "[x](y"]);
        }
    }

    fn link(&mut self, depth: usize) {
        let image = if self.r.below(3) == 0 { "![" } else { "[" };
        match self.r.below(4) {
            0 => self.around(image, "][]", depth),
            1 => {
                self.around(image, "][", depth);
                self.destination();
                self.put("]");
            }
            _ => {
                self.around(image, "](", depth);
                self.destination();
                self.put(")");
            }
        }
    }

    fn verbatim(&mut self) {
        self.of(&["", "", "$", "$$", "\\$"]);
        let run = ["`", "``", "```"][self.r.below(3)];
        self.put(run);
        self.of(&["", " ", "\t "]);
        for _ in 0..1 + self.r.below(3) {
            self.of(&["R-07", "a", "\\", "*", "````", "x y", "{", "\\`"]);
            if self.r.below(8) == 0 {
                self.newline();
            }
        }
        self.of(&["", " ", "  "]);
        self.put(run);
        self.of(&["", "", "", "{=html}", "\\*"]);
    }

    /// Mostly a lone one.
    fn brace(&mut self) {
        match self.r.below(16) {
            0 => block(self.r, &mut self.sheet.text),
            _ => self.of(&["{", "{door", "{R-07 left", "{ ", "x}", "{12}", "{a=\"", "{% "]),
        }
    }

    fn item(&mut self, depth: usize) {
        let (open, close) = PAIRS[self.r.below(19)];
        match self.r.below(25) {
            0..=6 => self.word(),
            7..=9 => self.put(" "),
            10 => self.newline(),
            11..=12 => self.verbatim(),
            13 => self.of(&["<http://a.b>", "<a@b.c>", ":bolt:", ":+1:", "[^1]", "[^note a]"]),
            14 => self.of(&["\\*", "\\ ", "\\\\", "\\a", "--", "---", "...", "......", "-----"]),
            15 => self.brace(),
            16..=19 if depth < 4 => self.link(depth + 1),
            _ if depth < 4 => self.around(open, close, depth + 1),
            _ => self.word(),
        }
    }

    fn content(&mut self, depth: usize) {
        for _ in 0..1 + self.r.below(4) {
            self.item(depth);
        }
    }
}

/// A marked-up sheet: each line with its newline, with or without a quote mark before it.
pub fn marked_up(r: &mut Random, sheet: &mut Sheet) {
    let Sheet { text, starts, ends } = sheet;
    text.clear();
    starts.clear();
    ends.clear();
    starts.push(0);
    let gap = ["", "", "> ", "  "][r.below(4)];
    let depth = r.below(4);
    Writer { r, sheet, gap }.content(depth);
    sheet.ends.push(sheet.text.len());
}

/// Line lists that are none: a place beyond, before or behind where it should be, lines in another order, a start or an end too many.
fn damage_lines(r: &mut Random, sheet: &mut Sheet) {
    let n = sheet.text.len();
    let lines = sheet.starts.len().min(sheet.ends.len());
    let far = [n + 1, n + 9, 1 << 32, (1 << 32) + 1, 1 << 63, usize::MAX][r.below(6)];
    if lines == 0 || r.below(4) == 0 {
        let some = if r.below(2) == 0 { &mut sheet.starts } else { &mut sheet.ends };
        match r.below(3) {
            0 => some.push([0, n, far][r.below(3)]),
            1 => drop(some.pop()),
            _ => some.clear(),
        }
        return;
    }
    let (i, j) = (r.below(lines), r.below(lines));
    match r.below(7) {
        0 => sheet.starts[i] = far,
        1 => sheet.ends[i] = far,
        2 => std::mem::swap(&mut sheet.starts[i], &mut sheet.ends[i]),
        3 => sheet.starts[i] = sheet.starts[i].saturating_sub(1 + r.below(3)),
        4 => sheet.ends[i] = sheet.ends[i].saturating_add(1 + r.below(3)),
        5 => {
            sheet.starts.swap(i, j);
            sheet.ends.swap(i, j);
        }
        _ => {
            sheet.starts.insert(i, sheet.starts[j]);
            sheet.ends.insert(i, sheet.ends[j]);
        }
    }
}

/// Moves where a line ends, and with it, or not, where the next one starts.
fn move_edge(r: &mut Random, sheet: &mut Sheet) {
    let n = sheet.text.len();
    if sheet.ends.is_empty() {
        return;
    }
    let i = r.below(sheet.ends.len());
    let end = &mut sheet.ends[i];
    *end = (end.saturating_add(r.below(4))).saturating_sub(r.below(4)).min(n);
    let end = *end;
    if r.below(4) != 0 {
        if let Some(start) = sheet.starts.get_mut(i + 1) {
            *start = end + r.below(2);
        }
    }
}

/// Damages a sheet in one to three places.
pub fn damage(r: &mut Random, sheet: &mut Sheet) {
    for _ in 0..1 + r.below(3) {
        let n = sheet.text.len();
        let b = if r.below(4) == 0 { r.next() as u8 } else { telling(r) };
        match r.below(10) {
            0..=2 if n > 0 => sheet.text[r.below(n)] = b,
            3..=4 if n > 0 => sheet.take_out(r.below(n), 1),
            5..=6 => sheet.put_in(r.below(n + 1), b),
            7..=8 => move_edge(r, sheet),
            _ => damage_lines(r, sheet),
        }
    }
}

/// A random sheet. Whether it is a damaged one.
pub fn any(r: &mut Random, sheet: &mut Sheet) -> bool {
    match r.below(160) {
        0..=3 => dollars(r, sheet),
        4 => {
            backticks(r, &mut sheet.text);
            cut(r, sheet);
        }
        5..=12 => {
            nested(r, &mut sheet.text);
            cut(r, sheet);
        }
        13..=24 => marked_up(r, sheet),
        25..=56 => {
            let good = r.below(8);
            match good {
                0 | 1 => nested(r, &mut sheet.text),
                2 => braces(r, &mut sheet.text),
                4 => open_blocks(r, sheet),
                _ => marked_up(r, sheet),
            }
            if good < 4 {
                cut(r, sheet);
            }
            damage(r, sheet);
            return true;
        }
        57..=64 => open_blocks(r, sheet),
        65..=88 => {
            braces(r, &mut sheet.text);
            cut(r, sheet);
        }
        89..=104 => return behind_runs(r, sheet),
        _ => {
            text(r, &mut sheet.text);
            cut(r, sheet);
        }
    }
    false
}

/// How many shapes random sheets are counted by.
pub const SHAPES: usize = 8;

/// What they are called.
pub fn names() -> [String; SHAPES] {
    let longest = format!("with {LONGEST_RUN} backticks");
    let longer = format!("with {} and more", LONGEST_RUN + 1);
    ["of one line", "of more", "with gaps", "with touching lines", "with empty lines", &longest, &longer, "not UTF-8"].map(str::to_string)
}

/// Of a sheet whose lines are fit.
pub fn shapes(sheet: &Sheet) -> [bool; SHAPES] {
    let Sheet { text, starts, ends } = sheet;
    let two = |test: fn(usize, usize) -> bool| ends.iter().zip(starts.iter().skip(1)).any(|(&end, &start)| test(end, start));
    let runs = |test: fn(usize) -> bool| sheet.lines().any(|l| text[l.0..l.1].split(|&b| b != b'`').any(|run| test(run.len())));
    [
        starts.len() == 1,
        starts.len() > 1,
        two(|end, start| end < start),
        two(|end, start| end == start),
        sheet.lines().any(|l| l.0 == l.1),
        runs(|n| n == LONGEST_RUN),
        runs(|n| n > LONGEST_RUN),
        sheet.characters().is_none(),
    ]
}
