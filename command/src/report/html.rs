//! A report as one page in HTML, with all that it needs in itself, for a screen and for paper.

use super::document::{Document, Kind, Part, Table};
use crate::numbers::PLACES;

const STYLE: &str = include_str!("style.css");

/// Tables with no more rows than these stand on one sheet of paper.
const SHORT: usize = 20;

/// A column of words is not counted wider than this, since words go on in the next line.
const WORDS: usize = 20;

pub fn html(document: &Document) -> String {
    let title = escaped(&document.title);
    let mut page = format!(
        "<!DOCTYPE html>\n<html lang=\"en\">\n<head>\n<meta charset=\"utf-8\">\n\
         <meta name=\"viewport\" content=\"width=device-width, initial-scale=1\">\n\
         <title>{title}</title>\n<style>\n{STYLE}</style>\n</head>\n<body>\n<h1>{title}</h1>\n"
    );
    for part in &document.parts {
        page += &match part {
            Part::Heading(level, heading) => format!("<h{level}>{}</h{level}>\n", escaped(heading)),
            Part::Says(words) => format!("<p>{}</p>\n", escaped(words)),
            Part::Answer { asked, answer } => {
                let answer: String = answer.iter().map(|line| format!("<p>{}</p>\n", escaped(line))).collect();
                format!("<div class=\"answer\">\n<p class=\"asked\">{}</p>\n{answer}</div>\n", escaped(asked))
            }
            Part::Table(table) => of_table(table),
            Part::Picture(picture) => {
                format!("<figure>\n<figcaption>{}</figcaption>\n{}</figure>\n", escaped(&picture.caption), picture.svg())
            }
        };
    }
    page + "</body>\n</html>\n"
}

/// Tables of long numbers are set in a smaller size, so that no column goes beyond the sheet.
fn size(table: &Table) -> &'static str {
    let widest = |at: usize| table.rows.iter().map(|row| row.cells[at].chars().count()).max().unwrap_or(0);
    let column = |at: usize| if at > 0 && table.columns[at].words { widest(at).min(WORDS) } else { widest(at) };
    match (0..table.columns.len()).map(column).sum() {
        0..=100 => "usual",
        101..=130 => "wide",
        _ => "widest",
    }
}

/// A row of the table is a line of the page.
fn of_table(table: &Table) -> String {
    let Table { name, caption, columns, rows } = table;
    let class = |at: usize| if columns[at].words { " class=\"words\"" } else { "" };
    let cells = |tag: &str, cells: &mut dyn Iterator<Item = &str>| -> String {
        let cell = |(at, cell): (usize, &str)| match cell.strip_suffix(PLACES) {
            Some(whole) => format!("<{tag} class=\"whole\">{}</{tag}>", escaped(whole)),
            None => format!("<{tag}{}>{}</{tag}>", class(at), escaped(cell)),
        };
        cells.enumerate().map(cell).collect()
    };
    let names = cells("th", &mut columns.iter().map(|column| column.name));
    let short = if rows.len() <= SHORT { " short" } else { "" };
    let mut html = format!("<div class=\"scroll\">\n<table id=\"{name}\" class=\"{}{short}\">\n", size(table));
    html += &format!("<caption>{}</caption>\n", escaped(caption));
    html += &format!("<thead>\n<tr>{names}</tr>\n</thead>\n<tbody>\n");
    for (kind, of_row) in table.cells() {
        let kind = match kind {
            Kind::Plain => "",
            Kind::Head => " class=\"head\"",
            Kind::Marked => " class=\"marked\"",
            Kind::Sum => " class=\"sum\"",
        };
        html += &format!("<tr{kind}>{}</tr>\n", cells("td", &mut of_row.into_iter()));
    }
    html + "</tbody>\n</table>\n</div>\n"
}

/// Words as they stand in a page.
pub fn escaped(words: &str) -> String {
    words.replace('&', "&amp;").replace('<', "&lt;").replace('>', "&gt;").replace('"', "&quot;")
}
