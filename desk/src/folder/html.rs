//! The table of all roads as one HTML page, with links to the pages and lists.

use std::ffi::OsStr;
use std::path::Path;

use crate::folder::inputs::target;
use crate::folder::road::{Outcome, Road};
use crate::folder::table;
use crate::language::Language;
use crate::names::plain;
use crate::report::html::escaped;
use crate::words::folder as words;

const STYLE: &str = "body{font:14px/1.4 sans-serif;margin:2em;color:#111}\
table{border-collapse:collapse}\
th,td{padding:.2em .8em;border-bottom:1px solid #ccc;text-align:left;vertical-align:top}\
.n{text-align:right;font-variant-numeric:tabular-nums;white-space:nowrap}\
.refused td{background:#fff3f0}.failed td{background:#fff8dc}\
@media print{body{margin:0;font-size:9pt}thead{display:table-header-group}tr{break-inside:avoid}}";

pub fn page(from: &Path, roads: &[Road], language: Language) -> String {
    let folder = plain(from.as_os_str());
    let title = escaped(&language.say(words::TITLE, &[&folder]));
    let mut out = format!(
        "<!DOCTYPE html>\n<html lang=\"{}\">\n<head>\n<meta charset=\"utf-8\">\n<title>{title}</title>\n\
         <style>{STYLE}</style>\n</head>\n<body>\n<h1>{title}</h1>\n<table>\n<thead>\n{}</thead>\n<tbody>\n",
        language.code(),
        head(language),
    );
    for road in roads {
        out += &row(road, language);
    }
    let totals = escaped(&table::totals(roads, language));
    out + &format!("</tbody>\n</table>\n<p>{totals}</p>\n</body>\n</html>\n")
}

fn head(language: Language) -> String {
    let names = table::HEAD.iter().zip(table::IS_NUMBER);
    let cells = names.map(|(name, is_number)| {
        let name = escaped(&language.say(*name, &[]));
        format!("<th{}>{name}</th>", class(is_number))
    });
    format!("<tr>{}<th></th></tr>\n", cells.collect::<String>())
}

fn row(road: &Road, language: Language) -> String {
    let mut cells = table::cells(road, language).map(|cell| escaped(&cell));
    let mut list = String::new();
    let kind = match road.outcome {
        Outcome::Listed { .. } => "listed",
        Outcome::Refused(_) => "refused",
        Outcome::Failed(_) => "failed",
    };
    if kind != "failed" {
        cells[0] = link(&target(&road.name, "html"), &cells[0]);
        let word = language.say(words::LIST, &[]);
        list = link(&target(&road.name, "list"), &word);
    }
    let columns = cells.iter().zip(table::IS_NUMBER);
    let columns = columns.map(|(cell, is_number)| format!("<td{}>{cell}</td>", class(is_number)));
    let columns: String = columns.collect();
    format!("<tr class=\"{kind}\">{columns}<td>{list}</td></tr>\n")
}

fn class(is_number: bool) -> &'static str {
    match is_number {
        true => " class=\"n\"",
        false => "",
    }
}

fn link(file: &OsStr, shown: &str) -> String {
    format!("<a href=\"{}\">{shown}</a>", address(file))
}

/// A file's name as a relative address, whatever its bytes.
fn address(file: &OsStr) -> String {
    let bytes = file.as_encoded_bytes().iter();
    let letters = bytes.map(|&byte| match byte {
        b'a'..=b'z' | b'A'..=b'Z' | b'0'..=b'9' | b'-' | b'.' | b'_' | b'~' => {
            char::from(byte).to_string()
        }
        _ => format!("%{byte:02X}"),
    });
    letters.collect()
}

#[cfg(test)]
mod tests {
    use super::*;

    #[test]
    fn names_with_any_bytes() {
        assert_eq!(
            address(OsStr::new("a b&\u{436}.html")),
            "a%20b%26%D0%B6.html"
        );
        let road = Road {
            name: "<b> \".alignment".into(),
            contract: None,
            outcome: Outcome::Listed {
                length: 1_500,
                rows: 3,
            },
            is_unchanged: false,
        };
        let page = page(Path::new("in & out"), &[road], Language::English);
        assert!(page.contains("<h1>Roads of in &amp; out</h1>"));
        assert!(page.contains("<a href=\"%3Cb%3E%20%22.html\">&lt;b&gt; &quot;.alignment</a>"));
        assert!(page.contains("<td class=\"n\">1.500</td><td class=\"n\">3</td>"));
    }
}
