//! The texts that are read: the same in every run.

use crate::mivurakol::Line;

/// What is read together: a text, and the sheets in it, each the lines from their starts to before their ends.
pub struct Case {
    pub name: &'static str,
    pub text: String,
    pub sheets: Vec<Sheet>,
}

/// With the sum of the line lengths, and the label bytes that are built; and, of a fragment, its length and the output room that is lent.
pub struct Sheet {
    pub lines: Vec<Line>,
    pub bytes: usize,
    pub labels: usize,
    #[cfg(fragments)]
    pub length: usize,
    #[cfg(fragments)]
    pub out: usize,
}

const KIB: usize = 1024;

/// The bytes of a line, where a text is cut into lines.
#[cfg(braces)]
const LINE: usize = 80;

/// Words that follow no pattern, from a linear congruence.
struct Dice(u64);

impl Dice {
    fn below(&mut self, n: usize) -> usize {
        self.0 = self.0.wrapping_mul(6364136223846793005).wrapping_add(1442695040888963407);
        (self.0 >> 33) as usize % n
    }

    fn one_of<'a>(&mut self, parts: &[&'a str]) -> &'a str {
        parts[self.below(parts.len())]
    }
}

/// Cells of a wiring sheet; # is a digit.
const CELLS: &[&str] = &[
    "*##* `R-##` left",
    "*##* `R-##` right",
    "`X#:##` _spare_",
    "##",
    "`K##`",
    "left",
    "GND",
    "*L#* brown #.##",
    "*N* blue",
    "0.75 -- 1.5 mm",
    "door ## \"upper\"",
    "see [sheet #](s#)",
    "24 V {-12 V-}",
    "{+new+} `F##`",
    "don't bend",
    ":lock: ##",
    "max. ##^2^",
    "note [^#]",
];

/// Lines of a marked-up sheet; # is a digit.
const MARKED: &[&str] = &[
    "Door *##* is wired to `R-##` and `R-##` on the _left_ rail, see [sheet #](sheets/##.dj).\n",
    "The {+new+} relay {-K##-} {=K##=} takes 24 V; its coil is \"K##\", not 'K##'.\n",
    "H~2~O sensors (m^2^ of {~floor~}) are on `X#:##`, `X#:##` and ``a `b` c``.\n",
    "![photo of cabinet ##](img/##.png) and [the plan][plan ##], [footnote][] [^##]\n",
    "Ask <fitter##@lockers.example> or see <https://lockers.example/##>; :warning: :lock:\n",
    "0.75 -- 1.5 mm, 10--12 Nm --- never more... \\*not strong\\*\\ here, $`U = R I`.\n",
    "*Strong with _emphasis_ and `verbatim`* then {*braced {_twice_} over*} end.\n",
    "A link whose [text runs\n",
    "on](to/another/line/##) and `a verbatim\n",
    "that does` as well; [a reference][of two\n",
    "lines ##], raw `<b>`{=html} and a hard break\\\n",
    "plain words of a cell without any markup in them, ## of ##\n",
];

/// As above, for a fragment: without links, images, autolinks and footnote references, which are refused, and with characters that are escaped.
#[cfg(fragments)]
const SHOWN: &[&str] = &[
    "Door *##* is wired to `R-##` and `R-##` on the _left_ rail, see (sheet #) & (##.dj).\n",
    "The {+new+} relay {-K##-} {=K##=} takes 24 V; its coil is \"K##\", not 'K##'.\n",
    "H~2~O sensors (m^2^ of {~floor~}) are on `X#:##`, `X#:##` and ``a `b` c``.\n",
    "Photo of cabinet ## {=img/##.png=} and *the plan* ##, {^footnote^} `U < ## V && I > # A`\n",
    "Ask {_fitter ##_} or see {*lockers*} ##; -20 < ## > 4 :warning: :lock: $$`x_# < ##`\n",
    "0.75 -- 1.5 mm, 10--12 Nm --- never more... \\*not strong\\*\\ here, $`U = R I`.\n",
    "*Strong with _emphasis_ and `verbatim`* then {*braced {_twice_} over*} end.\n",
    "A mark whose {=text runs\n",
    "on to another line ##=} and `a verbatim\n",
    "that does` as well; {-a deletion of two\n",
    "lines ##-}, raw `<b>`{=html} and a hard break\\\n",
    "plain words of a cell without any markup in them, ## of ##\n",
];

/// Words of prose.
const WORDS: &[&str] = &[
    "the", "of", "and", "a", "to", "in", "is", "was", "locker", "parcel", "cabinet", "door", "wire", "that", "it", "for", "on", "are", "with",
    "fitter", "opens", "from", "this", "have", "by", "one", "had", "not", "but", "what", "all", "were", "when", "there", "can", "which", "their",
    "said", "if", "will", "each", "about", "how", "up", "out", "them", "relay", "terminal", "between", "against", "morning", "nothing",
];

fn sheet(ranges: impl Iterator<Item = (usize, usize)>) -> Sheet {
    let lines: Vec<Line> = ranges.map(|(start, end)| Line { start, end }).collect();
    let bytes = lines.iter().map(|l| l.end - l.start).sum();
    Sheet {
        lines,
        bytes,
        labels: 0,
        #[cfg(fragments)]
        length: 0,
        #[cfg(fragments)]
        out: 0,
    }
}

/// One sheet: each line with its newline.
fn lines(name: &'static str, text: String) -> Case {
    let mut at = 0;
    let whole = sheet(text.split_inclusive('\n').map(|line| {
        at += line.len();
        (at - line.len(), at)
    }));
    Case { name, text, sheets: vec![whole] }
}

fn digits(dice: &mut Dice, pattern: &str, text: &mut String) {
    text.extend(pattern.chars().map(|c| if c == '#' { char::from(b'0' + dice.below(10) as u8) } else { c }));
}

/// So many bytes of what `more` puts behind a text, the last line filled up with one letter.
fn filled(size: usize, mut more: impl FnMut(&mut String)) -> String {
    let mut text = String::new();
    loop {
        let whole = text.len();
        more(&mut text);
        if text.len() > size {
            text.truncate(whole);
            text.extend(std::iter::repeat_n('x', size - whole));
            return text;
        }
    }
}

/// 2,000 of these cells, each a sheet of one line.
fn table(name: &'static str, cells: &[&str]) -> Case {
    let mut dice = Dice(1);
    let mut text = String::new();
    let mut sheets = Vec::new();
    for _ in 0..2000 {
        let start = text.len();
        let cell = dice.one_of(cells);
        digits(&mut dice, cell, &mut text);
        sheets.push(sheet(std::iter::once((start, text.len()))));
        text.push_str(" | ");
    }
    Case { name, text, sheets }
}

pub fn cells() -> Case {
    table("a  cells, 2,000", CELLS)
}

/// For fragments: without the two cells that have a link or a footnote reference, which are refused.
#[cfg(fragments)]
pub fn shown_cells(name: &'static str) -> Case {
    let shown: Vec<&str> = CELLS.iter().copied().filter(|cell| !cell.contains('[')).collect();
    table(name, &shown)
}

/// 64 KiB of these lines.
fn sheet_of(name: &'static str, pattern: &[&str]) -> Case {
    let mut dice = Dice(2);
    lines(name, filled(64 * KIB, |text| pattern.iter().for_each(|line| digits(&mut dice, line, text))))
}

pub fn marked_up() -> Case {
    sheet_of("b  marked up, 64 KiB", MARKED)
}

/// The like, for a fragment.
#[cfg(fragments)]
pub fn shown(name: &'static str) -> Case {
    sheet_of(name, SHOWN)
}

/// Lines of about 80 bytes; sentences of about twelve words, with a comma, a full stop, now and then an apostrophe or a quotation.
pub fn prose() -> Case {
    let mut dice = Dice(3);
    let text = filled(64 * KIB, |text| {
        let start = text.len();
        while text.len() < start + 76 {
            let word = dice.one_of(WORDS);
            match dice.below(60) {
                0..=4 => text.extend([word, ". "]),
                5..=9 => text.extend([word, ", "]),
                10 => text.extend([word, "'s "]),
                11 => text.extend(["\"", word, "\" "]),
                _ => text.extend([word, " "]),
            }
        }
        text.pop();
        text.push('\n');
    });
    lines("c  prose, 64 KiB", text)
}

/// Openers of all sorts that never close. Each token that can close finds an opener of its own soon, and may not close it after a blank.
pub fn openers() -> Case {
    const OPENERS: &[&str] = &["*a ", "_b ", "{*c ", "[d ", "{_e ", "^f ", "~g ", "{+h ", "\"i ", "'j ", "{-k ", "{=l ", "![m ", "{^n ", "{~o "];
    let text = filled(16 * KIB, |text| text.extend(OPENERS.iter().copied()));
    lines("d  openers, 16 KiB", text)
}

/// Openers that never close, each with a token behind it that searches through all of them in vain.
pub fn searches() -> Case {
    lines("d  searches, 16 KiB", filled(16 * KIB, |text| text.push_str("[)")))
}

/// So many bytes: something, and a piece over and over, in one line.
#[cfg(braces)]
fn repeated(before: &str, piece: &str, size: usize) -> String {
    before.chars().chain(piece.chars().cycle()).take(size).collect()
}

/// A text in lines: the last byte of each becomes a newline.
#[cfg(braces)]
fn cut(text: &str) -> String {
    text.char_indices().map(|(i, c)| if i % LINE == LINE - 1 { '\n' } else { c }).collect()
}

/// Braces at which no attribute block stands, each text in one line and in lines. No more than three validators are undecided at a time: behind a
/// comment and a quoted value that never end, one more. Letters keep three so to the end; a brace at each byte takes the most steps.
#[cfg(braces)]
pub fn braces() -> Vec<Case> {
    const DOORS: &str = "{door 12} relay {R-07 left ";
    const OPEN: &str = "{%{k=\"";
    const THREE: &str = "{%{k=\"{.";
    [
        (["g  `{a=\"` in a line", "g  `{a=\"` in lines"], "", "{a=\"", 64),
        (["h  `{%` in a line", "h  `{%` in lines"], "", "{%", 64),
        (["i  `{ ` in a line", "i  `{ ` in lines"], "", "{ ", 64),
        (["j  doors in a line", "j  doors in lines"], "", DOORS, 64),
        (["k  three in a line", "k  three in lines"], THREE, "a", 64),
        (["l  worst 16K a line", "l  worst 16K lines"], OPEN, "{", 16),
        (["l  worst 64K a line", "l  worst 64K lines"], OPEN, "{", 64),
        (["l  worst 256K a line", "l  worst 256K lines"], OPEN, "{", 256),
    ]
    .into_iter()
    .flat_map(|([one, many], before, piece, kib)| {
        let text = repeated(before, piece, kib * KIB);
        let in_lines = cut(&text);
        [lines(one, text), lines(many, in_lines)]
    })
    .collect()
}
