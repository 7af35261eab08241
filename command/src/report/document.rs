//! A report as a list of parts, of which the text and the page are both made, so that they say the same.

use super::picture::Picture;
use crate::numbers::PLACES;

pub struct Document {
    pub title: String,
    pub parts: Vec<Part>,
}

pub enum Part {
    /// A heading of level 2 or 3.
    Heading(usize, String),
    Says(String),
    /// What a reader asks, and the answer: each line for something of its own.
    Answer {
        asked: String,
        answer: Vec<String>,
    },
    Table(Table),
    Picture(Picture),
}

/// Rows of cells under the names of their columns. The name is for those who look for a table in the page.
pub struct Table {
    pub name: String,
    pub caption: String,
    pub columns: Vec<Column>,
    pub rows: Vec<Row>,
}

/// A column of numbers, or of words.
#[derive(Clone, Copy)]
pub struct Column {
    pub name: &'static str,
    pub words: bool,
}

pub struct Row {
    pub kind: Kind,
    pub cells: Vec<String>,
}

/// A row that stands for itself, one that heads those under it, one that is to be seen, or the sum of those above it.
#[derive(Clone, Copy, PartialEq, Eq)]
pub enum Kind {
    Plain,
    Head,
    Marked,
    Sum,
}

impl Document {
    pub fn new(title: String) -> Document {
        Document { title, parts: vec![] }
    }

    pub fn heading(&mut self, level: usize, text: impl Into<String>) {
        self.parts.push(Part::Heading(level, text.into()));
    }

    pub fn say(&mut self, text: impl Into<String>) {
        self.parts.push(Part::Says(text.into()));
    }

    pub fn answer(&mut self, asked: &str, answer: impl IntoIterator<Item = String>) {
        self.parts.push(Part::Answer { asked: asked.to_string(), answer: answer.into_iter().collect() });
    }
}

impl Table {
    /// A table; the names of columns of words begin with `'`.
    pub fn new(name: impl Into<String>, caption: impl Into<String>, columns: &[&'static str]) -> Table {
        let column = |name: &&'static str| match name.strip_prefix('\'') {
            Some(name) => Column { name, words: true },
            None => Column { name, words: false },
        };
        Table { name: name.into(), caption: caption.into(), columns: columns.iter().map(column).collect(), rows: vec![] }
    }

    pub fn row<const CELLS: usize>(&mut self, kind: Kind, cells: [String; CELLS]) {
        self.rows.push(Row { kind, cells: cells.to_vec() });
    }

    /// The rows with their cells. Nothing is left free after whole amounts in a column where no amount has places.
    pub fn cells(&self) -> Vec<(Kind, Vec<&str>)> {
        let column = |at: usize| self.rows.iter().map(move |row| row.cells[at].as_str());
        let whole = |at: usize| column(at).all(|cell| cell.is_empty() || cell.ends_with(PLACES));
        let whole: Vec<bool> = (0..self.columns.len()).map(whole).collect();
        self.rows
            .iter()
            .map(|row| {
                let cells = row.cells.iter().zip(&whole);
                (row.kind, cells.map(|(cell, whole)| if *whole { cell.trim_end() } else { cell.as_str() }).collect())
            })
            .collect()
    }
}

/// A cell with nothing in it.
pub fn none() -> String {
    String::new()
}
