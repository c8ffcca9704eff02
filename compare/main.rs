//! Compares ours with the Rust (`lex.rs`, `attr.rs` and `inline.rs` of the documents, as they stand): the reader, the fragment and the leaves, each
//! from its static library; and the packed list with what document 02 says of it.
//!
//! `run [N [SEED]]`: compares, with N random sheets (20 million if it is left out), as many packed lists of each kind and half as many random lines,
//! other ones for another seed.
//! Status 1 at the first difference.
//! `run lists [N [SEED]]`: compares packed lists alone, N of each kind (a million if it is left out).
//! `run runs [N [SEED]]`: compares N random sheets of backticks and backslashes alone (20 million if it is left out).
//! `run margin [N [SEED]]`: compares N pairs of texts that differ between lines alone, and N that differ in the byte before a line (5 million).
//! `run rows [SEED]`: prints the sample of the Rust's answers that the definition of a reading is computed on, `crates/reading/proofs/Sampled.antt`.
//! `run sample`: prints the sample of the Rust's answers that `crates/replay` replays.
//! `run sheets`: prints the sheets, with the Rust's answers, that `crates/replay_sheets` replays.
//! `run show < FILE`: prints what `./sheet < FILE` must print.
//! `run fragment < FILE`, `run pack < FILE`, `run unpack < FILE`: what `./fragment < FILE` must print, and so on.
//! `run browser [SEED]`, `run picture FILE`: fragments in Chromium, as `compare/browser` says.

#[allow(dead_code, unused_imports)]
mod attr;
#[allow(dead_code)]
mod inline {
    include!(env!("INLINE_RS"));
}
/// The Rust in reading 1.
#[allow(dead_code)]
mod strict {
    include!(env!("STRICT_RS"));
}
#[allow(dead_code)]
mod lex {
    include!(env!("LEX_RS"));
}
/// Both, with a line that says of each link which events its destination has, and one that says of each token how it seeks (`noted`).
#[allow(dead_code)]
mod noting {
    include!(env!("NOTED_RS"));
}
#[allow(dead_code)]
mod noting_strict {
    include!(env!("NOTED_STRICT_RS"));
}
type CowStr<'s> = std::borrow::Cow<'s, str>;

mod browser;
mod check;
mod events;
mod expect;
mod fragment;
mod laws;
mod lending;
mod limits;
mod lists;
mod lookup;
mod margin;
#[path = "../interface/mivurakol.rs"]
mod mivurakol;
mod model;
mod noted;
mod oracle;
mod ours;
mod packed;
mod packer;
mod picture;
mod random;
mod rooms;
mod rows;
mod sample;
mod scans;
mod shapes;
mod sheet;
mod sheets;
mod show;
mod shown;
mod stored;
mod theirs;
mod tokens;
mod validator;
mod worked;
mod written;

use check::Counts;
use mivurakol::code;
use packer::Packer;

/// Whether there is no difference; then the last line says so.
fn compare(random: u64, seed: u64) -> bool {
    let Some(mut checker) = sheets::compare(random, seed) else {
        return false;
    };
    if !margin::compare(random / 4, seed) {
        return false;
    }
    let packer = &mut checker.packer;
    if !lists::compare(packer, random, seed) {
        return false;
    }
    let (packs, unpacks) = (packer.packs.all(), packer.unpacks.all());
    let lines = random / 2;
    if validator::compare() || tokens::compare(lines, seed) || scans::compare(seed) {
        return false;
    }
    let (sheets, [records, numbers]) = (checker.sheets, checker.calls);
    let fragments: u64 = checker.fragments.iter().sum();
    let [linked, short] = [code::LINKED, code::OUTPUT_ROOM].map(|code| checker.fragments[code as usize]);
    let Counts { lone, blocks, .. } = checker.counts[0];
    println!(
        "no difference in {sheets} sheets, {random} of them random, {lone} with a lone brace read as Str and {blocks} refused at an attribute block \
         in reading 0, in both readings by {records} calls on line records and {numbers} on starts and ends, in {fragments} fragments, {linked} of \
         them refused for a link and {short} for output room, in {packs} lists packed and {unpacks} unpacked, and in the leaves"
    );
    true
}

fn main() {
    let [word, second, third] = [1, 2, 3].map(|i| std::env::args().nth(i));
    let seed_of = |word: &Option<String>| word.as_deref().map_or(0x5eed, |n| n.parse().expect("a seed"));
    let number_of = |word: &Option<String>, most| word.as_deref().map_or(most, |n| n.parse().expect("a number of inputs"));
    let seed = || seed_of(&second);
    let mut right = true;
    match word.as_deref() {
        Some("lists") => right = lists::compare(&mut Packer::new(seed_of(&third)), number_of(&second, 1_000_000), seed_of(&third)),
        Some("runs") => right = sheets::compare_runs(number_of(&second, 20_000_000), seed_of(&third)),
        Some("margin") => right = margin::compare(number_of(&second, 5_000_000), seed_of(&third)),
        Some("rows") => rows::print(seed()),
        Some("sample") => sample::print(),
        Some("sheets") => stored::print(),
        Some("show") => show::print(),
        Some("fragment") => show::print_fragment(),
        Some("pack") => show::print_packed(),
        Some("unpack") => show::print_unpacked(),
        Some("browser") => right = browser::compare(seed()),
        Some("picture") => right = picture::save(second.as_deref().expect("a file").as_ref()),
        _ => right = compare(number_of(&word, 20_000_000), seed()),
    }
    if !right {
        std::process::exit(1);
    }
}
