//! Fragments in a browser: some thousand of them stand in one page, Chromium reads it, and the elements and characters that it finds in each
//! fragment's place are held to the events of the sheet.
//!
//! A script of the page walks what stands in each place, and writes its form in ASCII: an element as `[NAME ATTRIBUTES]` and `[/NAME]`, characters as
//! they are encoded in a URL. The form that is expected is made from the events alone.
//!
//! HTML does not take a CR or a NUL of a text as it is: as a page is read, CR LF and a CR alone become LF, and then a NUL is dropped. So it is done to
//! the characters of the events too, where no element stands between them. A form feed and all other control characters stay what they are.

use crate::expect::Expect;
use crate::fragment::linked;
use crate::lending::{Lending, Size, SURE};
use crate::mivurakol::{self, code, Event, Line};
use crate::random::Random;
use crate::shapes::{any, cut};
use crate::sheet::Sheet;
use crate::shown::shown;
use crate::worked::TABLES;
use crate::written::WRITTEN;
use std::fmt::Write;
use std::path::{Path, PathBuf};
use std::process::Command;

/// How many random sheets there are of each of the two sorts.
const SHEETS: usize = 2000;

/// How many differences are told.
const TOLD: usize = 5;

/// Pieces of HTML, characters that it treats in a way of its own, and such that it must leave alone.
const PIECES: &[&str] = &[
    "<script>hurts()</script>", "</script>", "<img src=x onerror=hurts()>", "<svg onload=hurts()>", "<svg/onload=hurts()>",
    "<a href=x onclick=hurts()>", "<input autofocus onfocus=hurts()>", "<iframe srcdoc=x>", "<body onload=hurts()>", "</div>", "</body></html>",
    "<!--", "-->", "--!>", "<!DOCTYPE x>", "<![CDATA[", "]]>", "<?x ?>", "<plaintext>", "<textarea>", "</textarea>", "<style>", "</style>",
    "<title>", "<template>", "<noscript>", "<b>", "</b>", "<br>", "</br>", "<p>", "</p>", "<table><tr><td>", "<select><option>", "<math><mi>",
    "</span>", "\\)</span>", "</code>", "</strong>", "</em>", "<em>", "&", "&amp;", "&lt;", "&gt", "&#60;script&#62;", "&#x3c;", "&#0;", "&nbsp;",
    "&copy", "&notit;", "&;", "<", ">", "<<", ">>", "< ", "</", "/>", "=", "\" onclick=\"hurts()", "' x='", "\\", "\\<", "\\>", "\\&", "\\)",
    "\\]", "\0", "\0\0", "\r", "\r\n", "\r\0\n", "\x0c", "\x0b", "\x01", "\x1b", "\x7f", "\u{80}", "\u{85}", "\u{a0}", "\u{ad}", "\u{200b}",
    "\u{202e}", "\u{2028}", "\u{feff}", "\u{fffd}", "\u{fffe}", "\u{10ffff}", "é", "e\u{301}", "漢字", "😀", "👩‍🔧", "12", "R-07", "left", " ", " ",
    "\n", "\\\n", "\\ ", "--", "---", "...", ":lock:", "'", "\"", "{", "{door", "{% ",
];

/// What stands around them: first those that nest in one another.
const AROUND: &[(&str, &str)] = &[
    ("{*", "*}"), ("{_", "_}"), ("{~", "~}"), ("{^", "^}"), ("{+", "+}"), ("{-", "-}"), ("{=", "=}"), ("*", "*"), ("_", "_"), ("`", "`"),
    ("``", "``"), ("$`", "`"), ("$$`", "`"), ("`", "`{=html}"), ("\"", "\""), ("'", "'"), ("{'", "'}"),
];
const NESTING: usize = 7;

/// So many in one another at most: Chromium itself lets no element be deeper than 512.
const DEEPEST: usize = 60;

/// Pieces, and pieces with something around them, in one another.
fn hostile(r: &mut Random, depth: usize, out: &mut String) {
    for _ in 0..1 + r.below(4) {
        if depth > 0 && r.below(2) == 0 {
            let (open, close) = AROUND[r.below(AROUND.len())];
            out.push_str(open);
            hostile(r, depth - 1, out);
            out.push_str(close);
        } else {
            out.push_str(PIECES[r.below(PIECES.len())]);
        }
    }
}

/// A piece in many containers, some of them of one sort more than once.
fn deep(r: &mut Random, out: &mut String) {
    let around: Vec<_> = (0..1 + r.below(DEEPEST)).map(|_| AROUND[r.below(NESTING)]).collect();
    around.iter().for_each(|(open, _)| out.push_str(open));
    out.push_str(PIECES[r.below(PIECES.len())]);
    around.iter().rev().for_each(|(_, close)| out.push_str(close));
}

/// A sheet of these, each line with its newline or cut anyhow.
fn hostile_sheet(r: &mut Random) -> Sheet {
    let mut text = String::new();
    match r.below(8) {
        0 => deep(r, &mut text),
        depth => hostile(r, depth / 2 + 1, &mut text),
    }
    let mut sheet = Sheet::by_newline(text.as_bytes());
    if r.below(4) == 0 {
        cut(r, &mut sheet);
    }
    sheet
}

/// A fragment of ours, and the form that its place must have.
struct Place {
    sheet: Sheet,
    reading: u32,
    html: String,
    form: Form,
}

/// What stands in a place, and how many elements and characters that is.
#[derive(Default)]
struct Form {
    ascii: String,
    elements: usize,
    characters: usize,
}

/// As `encodeURIComponent` has it.
fn encode(text: &str, out: &mut String) {
    for b in text.bytes() {
        if b.is_ascii_alphanumeric() || b"-_.!~*'()".contains(&b) {
            out.push(char::from(b));
        } else {
            write!(out, "%{b:02X}").expect("a string");
        }
    }
}

impl Form {
    fn element(&mut self, tag: &str) {
        self.ascii.push('[');
        encode(tag, &mut self.ascii);
        self.ascii.push(']');
    }

    /// Characters with no element between them, as HTML takes them.
    fn text(&mut self, characters: &mut Vec<u8>) {
        let text = std::str::from_utf8(characters).expect("characters of a sheet of characters");
        let text = text.replace("\r\n", "\n").replace('\r', "\n").replace('\0', "");
        self.characters += text.chars().count();
        encode(&text, &mut self.ascii);
        characters.clear();
    }

    fn of(text: &[u8], events: &[Event]) -> Self {
        let mut form = Form::default();
        let mut characters = Vec::new();
        for event in shown(text, events) {
            if let Some(tag) = event.begins {
                form.text(&mut characters);
                form.element(tag);
                form.elements += 1;
            }
            characters.extend(event.characters);
            if let Some(tag) = event.ends {
                form.text(&mut characters);
                form.element(tag);
            }
        }
        form.text(&mut characters);
        form
    }
}

/// The fragment of a sheet, by our entry, in rooms that always suffice; none if it is refused.
fn ours(sheet: &Sheet, reading: u32, expect: &Expect) -> Option<String> {
    let sizes = expect.need.sizes(&Lending { out: Size::Bound, ..SURE });
    let mut rooms = mivurakol::Rooms {
        events: &mut vec![0; sizes.events],
        queue: &mut vec![0; sizes.queue],
        openers: &mut vec![0; sizes.openers],
        labels: &mut vec![0; sizes.labels],
    };
    let mut out = vec![0; sizes.out];
    let lines: Vec<Line> = sheet.lines().map(|(start, end)| Line { start, end }).collect();
    let answer = mivurakol::fragment(&sheet.text, &lines, reading, &mut rooms, &mut out);
    out.truncate(answer.length as usize);
    (answer.code == code::ACCEPTED).then(|| String::from_utf8(out).expect("a fragment in UTF-8"))
}

/// The fragment of a sheet in reading 0.
pub fn fragment(sheet: Sheet) -> Option<String> {
    let mut expect = Expect::new();
    expect.ask(&sheet, 0);
    ours(&sheet, 0, &expect)
}

/// Its place, if it is a sheet of characters and has a fragment. Ours may refuse no other.
fn place(sheet: Sheet, reading: u32, expect: &mut Expect) -> Option<Place> {
    sheet.characters()?;
    expect.ask(&sheet, reading);
    let events = &expect.rust.events;
    if !expect.readable() || linked(events).is_some() {
        return None;
    }
    let form = Form::of(&sheet.text, events);
    let html = ours(&sheet, reading, expect).unwrap_or_else(|| panic!("refused: {:?}", sheet.text));
    Some(Place { sheet, reading, html, form })
}

/// The sheets of the documents, the fragments written out by hand, and random sheets: any, and hostile ones. An empty fragment says nothing.
fn places(seed: u64) -> Vec<Place> {
    let mut expect = Expect::new();
    let mut r = Random::new(seed);
    let mut places: Vec<Place> = Vec::new();
    places.extend(TABLES.iter().copied().flatten().filter_map(|w| place(w.sheet(), w.reading, &mut expect)));
    places.extend(WRITTEN.iter().filter_map(|(text, _)| place(Sheet::by_newline(text.as_bytes()), 0, &mut expect)));
    for hostile in [false, true] {
        let end = places.len() + SHEETS;
        while places.len() < end {
            let mut sheet = Sheet::default();
            if hostile {
                sheet = hostile_sheet(&mut r);
            } else {
                any(&mut r, &mut sheet);
            }
            let reading = places.len() as u32 % 2;
            places.extend(place(sheet, reading, &mut expect).filter(|p| !p.form.ascii.is_empty()));
        }
    }
    places
}

/// Writes the forms into the page, a line each, between how many hurts there were and `end`.
const WALK: &str = r#"
function form(node) {
    let out = '';
    for (const child of node.childNodes) {
        if (child.nodeType === Node.TEXT_NODE) {
            out += encodeURIComponent(child.data);
        } else if (child.nodeType === Node.ELEMENT_NODE) {
            let tag = child.localName;
            for (const a of child.attributes) tag += ' ' + a.name + '="' + a.value + '"';
            out += '[' + encodeURIComponent(tag) + ']' + form(child);
            if (tag !== 'br') out += '[' + encodeURIComponent('/' + child.localName) + ']';
        } else {
            out += '[' + encodeURIComponent(child.nodeName) + ']';
        }
    }
    return out;
}
const forms = Array.from(document.querySelectorAll('body > div.fragment'), form);
document.getElementById('forms').textContent = ['', hurt, ...forms, 'end'].join('\n');
"#;

fn page(places: &[Place]) -> String {
    let mut page = String::from("<!DOCTYPE html>\n<html lang=\"en\"><head><meta charset=\"utf-8\"><title>Fragments</title>\n");
    page += "<script>let hurt = 0; function hurts() { hurt += 1; }</script></head><body>\n";
    for place in places {
        page += "<div class=\"fragment\">";
        page += &place.html;
        page += "</div>\n";
    }
    page += "<pre id=\"forms\"></pre>\n<script>";
    page += WALK;
    page += "</script></body></html>\n";
    page
}

/// The folder of the page, made if it is not there.
pub fn folder() -> PathBuf {
    let folder = std::env::current_dir().expect("a folder").join("target/compare/browser");
    std::fs::create_dir_all(&folder).expect("a folder for the page");
    folder
}

/// What Chromium prints with some arguments and a page, if it ends well.
pub fn chromium(arguments: &[&str], folder: &Path, page: &str) -> Option<String> {
    let file = folder.join("page.html");
    std::fs::write(&file, page).expect("the page is written");
    let errors = folder.join("chromium.log");
    let output = Command::new("chromium")
        .args(["--headless", "--no-sandbox", "--disable-gpu", "--hide-scrollbars"])
        .arg(format!("--user-data-dir={}", folder.join("profile").display()))
        .args(arguments)
        .arg(&file)
        .stderr(std::fs::File::create(&errors).expect("a log"))
        .output();
    match output {
        Ok(output) if output.status.success() => Some(String::from_utf8_lossy(&output.stdout).into_owned()),
        _ => {
            eprintln!("chromium failed; what it said is in {}", errors.display());
            None
        }
    }
}

/// The hurts and the forms out of a page as it was dumped.
fn forms(dump: &str) -> Option<(usize, Vec<&str>)> {
    let (_, behind) = dump.rsplit_once("<pre id=\"forms\">\n")?;
    let (text, _) = behind.split_once("\nend</pre>")?;
    let (hurt, forms) = text.split_once('\n')?;
    Some((hurt.parse().ok()?, forms.split('\n').collect()))
}

/// Whether there is no difference.
pub fn compare(seed: u64) -> bool {
    let places = places(seed);
    eprintln!("browser: {} fragments, which chromium reads now", places.len());
    let Some(dump) = chromium(&["--dump-dom"], &folder(), &page(&places)) else {
        return false;
    };
    let Some((hurt, forms)) = forms(&dump) else {
        println!("difference: the page is no longer whole, and its forms are not there");
        return false;
    };
    let different: Vec<_> = places.iter().zip(&forms).filter(|(place, form)| place.form.ascii != **form).collect();
    for (place, form) in different.iter().take(TOLD) {
        let Sheet { text, starts, ends } = &place.sheet;
        println!("difference: reading {}, {:?}, starts {starts:?}, ends {ends:?}", place.reading, String::from_utf8_lossy(text));
        println!("expected {}\nfound    {form}\nfragment {:?}", place.form.ascii, place.html);
    }
    let (elements, characters) = places.iter().fold((0, 0), |(e, c), place| (e + place.form.elements, c + place.form.characters));
    println!(
        "browser: {} fragments of seed {seed}, {} found, {elements} elements and {characters} characters compared, {} differences, {hurt} scripts run",
        places.len(),
        forms.len(),
        different.len()
    );
    different.is_empty() && forms.len() == places.len() && hurt == 0
}
