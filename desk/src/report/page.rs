//! A page of HTML: one file, with its style inside and no script.

use super::drawing::style;
use super::html::escaped;
use crate::language::Language;
use crate::words::{report as words, Phrase};

const STYLE: &str = "\
@page{size:A4;margin:10mm}\
body{font-family:'Liberation Sans',Arial,Helvetica,sans-serif;font-size:10.5pt;line-height:1.35;color:#111;background:#fff;max-width:1060px;margin:1em auto;padding:0 1em}\
h1{font-size:17pt;margin:.2em 0 .6em;overflow-wrap:anywhere}\
h2{font-size:13pt;margin:1.4em 0 .4em;break-after:avoid}\
p{margin:.4em 0}\
body>p{break-after:avoid}\
svg{display:block;width:100%;height:auto;margin:.8em 0;break-inside:avoid}\
table{border-collapse:collapse}\
th{font-weight:normal;color:#444}\
.facts{columns:3 15em;column-gap:2em}\
.facts div{display:flex;justify-content:space-between;gap:1em;border-bottom:1px dotted #aaa;break-inside:avoid}\
.facts b{font-weight:normal;color:#444;flex-shrink:1000}\
.facts span{text-align:right}\
.first{border:2px solid #111;padding:.5em .9em;margin:1em 0;break-inside:avoid}\
.first p{font-size:11.5pt}\
.list{font-family:'Liberation Mono','DejaVu Sans Mono',monospace;font-size:7.5pt;width:100%}\
.list td,.list th{text-align:right;vertical-align:top;padding:.05em .8em .05em 0}\
.list th{font-family:'Liberation Sans',Arial,sans-serif;border-bottom:1px solid #111}\
.list td:last-child,.list th:last-child{text-align:left;padding-right:0;width:36%;font-family:'Liberation Sans',Arial,sans-serif}\
.list tr{break-inside:avoid}\
pre{font-family:'Liberation Mono','DejaVu Sans Mono',monospace;font-size:7.5pt;line-height:1.2;white-space:pre-wrap;overflow-wrap:anywhere}\
.refused{border:2px solid #b3261e;padding:.3em .9em;margin:0 0 1em;break-inside:avoid}\
.finding{margin:.9em 0;break-inside:avoid}\
.finding h3{font-size:11pt;margin:0 0 .2em}\
.finding ul{margin:.2em 0;padding-left:1.4em}\
.finding pre,.finding+pre,.bytes{font-size:9.5pt;margin:.2em 0}\
.speeds{width:100%;break-inside:avoid}\
.speeds th,.speeds td{text-align:left;vertical-align:top;padding:.1em 1.5em .1em 0;border-bottom:1px dotted #aaa}\
.speeds th{width:1%;white-space:nowrap}\
.own th,.own td{font-weight:bold;color:#111}\
.speeds .fails{color:#b3261e}\
.number{color:#b3261e;font-weight:bold}\
.bad{background:#b3261e;color:#fff}\
@media print{body{margin:0;padding:0;max-width:none;font-size:8.5pt;line-height:1.25}h1{font-size:14pt;margin:0 0 .4em}h2{font-size:11pt;margin:.8em 0 .3em}\
.first{margin:.6em 0;padding:.3em .8em}.first p{font-size:9.5pt}svg{margin:.5em 0}\
.finding h3{font-size:9.5pt}.finding pre,.finding+pre,.bytes{font-size:7.5pt}}";

/// Adds to a page part by part.
pub struct Writer {
    pub html: String,
    pub language: Language,
}

impl Writer {
    /// The beginning of a page about a file.
    pub fn begin(name: &str, language: Language) -> Writer {
        let title = language.say(words::TITLE, &[&name]);
        let (code, title) = (language.code(), escaped(&title));
        let html = format!(
            "<!DOCTYPE html>\n<html lang=\"{code}\">\n<head>\n<meta charset=\"UTF-8\">\n<title>{title}</title>\n\
             <style>{STYLE}{}</style>\n</head>\n<body>\n<h1>{title}</h1>\n",
            style::STYLE,
        );
        Writer { html, language }
    }

    pub fn say(&self, phrase: Phrase) -> String {
        self.language.say(phrase, &[])
    }

    pub fn heading(&mut self, phrase: Phrase) {
        let words = escaped(&self.say(phrase));
        self.html += &format!("<h2>{words}</h2>\n");
    }

    pub fn paragraph(&mut self, words: &str) {
        self.html += &format!("<p>{}</p>\n", escaped(words));
    }

    /// Names and values in columns.
    pub fn facts(&mut self, facts: &[(String, String)]) {
        self.html += "<div class=\"facts\">\n";
        for (name, value) in facts {
            let (name, value) = (escaped(name), escaped(value));
            self.html += &format!("<div><b>{name}</b> <span>{value}</span></div>\n");
        }
        self.html += "</div>\n";
    }

    pub fn end(mut self) -> String {
        self.html += "</body>\n</html>\n";
        self.html
    }
}
