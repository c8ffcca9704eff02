//! A wiring table as a tablet would show it: each cell is a fragment of ours, and Chromium makes the picture.

use crate::browser::{chromium, folder, fragment};
use crate::sheet::Sheet;
use std::path::Path;

const HEADINGS: [&str; 5] = ["Door", "Relay", "Terminals", "Supply", "Notes"];

/// Cells of Djot.
const ROWS: &[[&str; 5]] = &[
    ["*11*", "`K11` -- `R-07`", "`X3:11`,\\\n`X3:12`", "24 V, _I_~max~ = 0.8 A", "opens to the \"left\"; don't bend the strap"],
    ["*12*", "`K12` -- {-`R-08`-} {+`R-09`+}", "`X3:13`,\\\n`X3:14`", "$`U = R I`, so 30\\ \u{3a9}", "{=check first=} --- it hums..."],
    ["*13*", "`K13` -- `R-10`", "`X3:15`, `X3:16`", "_I_ < 0.5 A & dry", "H~2~O sensor on 2 m^2^ of floor, -20 < _t_ < 40 \u{b0}C"],
    ["*14* {*(_spare_)*}", "`K14`", "`X4:1`--`X4:4`", "12 V {-24 V-}", "code `if (U < 12 && !door) K14 = 0;`"],
    ["*15*", "`K15` -- `R-12`", "``X`4``", "$$`P = U^2 / R`", ":lock: 10--12 Nm\\\nnever \\*more\\* than 'hand-tight'"],
    ["*16*", "`K16` -- `R-13`", "`X4:7`", "24 V", "sealed`<blink>!</blink>`{=html}; `<script>` is only text"],
];

const STYLE: &str = "body { font: 18px/1.4 sans-serif; margin: 24px; color: #222 }
h1 { font-size: 24px; margin: 0 0 16px }
table { border-collapse: collapse; width: 100% }
th, td { border: 1px solid #999; padding: 8px 12px; text-align: left; vertical-align: top }
th { background: #e8eef4 }
code { background: #f2f2f2; padding: 0 4px; border-radius: 3px }
ins { color: #060 }
del { color: #a00 }
.math { font-style: italic }";

fn cell(text: &str) -> String {
    fragment(Sheet::by_newline(text.as_bytes())).unwrap_or_else(|| panic!("refused: {text}"))
}

fn page() -> String {
    let mut page = String::from("<!DOCTYPE html>\n<html lang=\"en\"><head><meta charset=\"utf-8\"><title>Wiring</title>\n");
    page += &format!("<style>\n{STYLE}\n</style></head><body>\n");
    page += &format!("<h1>{}</h1>\n<table>\n<tr>", cell("Cabinet 7 --- doors 11--16, \"south hall\""));
    for heading in HEADINGS {
        page += &format!("<th>{heading}</th>");
    }
    for row in ROWS {
        page += "</tr>\n<tr>";
        for text in row {
            page += &format!("<td>{}</td>", cell(text));
        }
    }
    page += "</tr>\n</table></body></html>\n";
    page
}

/// Whether there is a picture.
pub fn save(file: &Path) -> bool {
    let file = std::path::absolute(file).expect("a file");
    let made = chromium(&[&format!("--screenshot={}", file.display()), "--window-size=1280,560"], &folder(), &page()).is_some();
    if made {
        println!("browser: {} cells in {}", HEADINGS.len() * ROWS.len(), file.display());
    }
    made
}
