//! A report as text.

use super::document::{Column, Document, Kind, Part, Table};

/// How wide a line of words is.
const WIDTH: usize = 100;

pub fn text(document: &Document) -> String {
    let mut text = format!("{}\n{}\n", document.title, "=".repeat(width(&document.title)));
    for part in &document.parts {
        text += "\n";
        text += &match part {
            Part::Heading(2, heading) => format!("\n{heading}\n{}\n", "-".repeat(width(heading))),
            Part::Heading(_, heading) => format!("{heading}\n{}\n", ".".repeat(width(heading))),
            Part::Says(words) => folded(words, ""),
            Part::Answer { asked, answer } => {
                format!("{asked}\n{}", answer.iter().map(|line| folded(line, "  ")).collect::<String>())
            }
            Part::Table(table) => of_table(table),
            Part::Picture(picture) => picture.text(),
        };
    }
    text
}

fn width(text: &str) -> usize {
    text.chars().count()
}

/// Words in lines that are not too wide.
fn folded(words: &str, indent: &str) -> String {
    let mut lines = vec![String::from(indent)];
    for word in words.split(' ') {
        let line = lines.last_mut().expect("a line");
        if line.len() > indent.len() && width(line) + 1 + width(word) > WIDTH {
            lines.push(format!("{indent}{word}"));
        } else {
            *line += if line.len() > indent.len() { " " } else { "" };
            *line += word;
        }
    }
    lines.join("\n") + "\n"
}

/// Columns as wide as their widest cell, numbers at the right; a line over each sum.
fn of_table(table: &Table) -> String {
    let Table { caption, columns, .. } = table;
    let rows = table.cells();
    let widest = |at: usize, column: &Column| {
        rows.iter().map(|(_, cells)| width(cells[at])).chain([width(column.name)]).max().unwrap_or(0)
    };
    let widths: Vec<usize> = columns.iter().enumerate().map(|(at, column)| widest(at, column)).collect();
    let line = |cells: &mut dyn Iterator<Item = &str>| {
        let mut line = String::new();
        for ((cell, column), width) in cells.zip(columns).zip(&widths) {
            line += &match column.words {
                true => format!("  {cell:<width$}"),
                false => format!("  {cell:>width$}"),
            };
        }
        line.trim_end().to_string() + "\n"
    };
    let mut text = format!("{caption}\n\n{}", line(&mut columns.iter().map(|column| column.name)));
    for (kind, cells) in &rows {
        if *kind == Kind::Sum {
            let rules: Vec<String> = widths.iter().map(|width| "-".repeat(*width)).collect();
            text += &line(&mut rules.iter().map(String::as_str));
        }
        text += &line(&mut cells.iter().copied());
    }
    text
}
