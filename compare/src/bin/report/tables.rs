//! The tables of a page: of each row its table and its cells.

/// The rows of all tables in their order, without the names of columns.
pub struct Tables(Vec<(String, Vec<String>)>);

impl Tables {
    /// Read from the page, where each row is a line.
    pub fn of_page(page: &str) -> Tables {
        let (mut rows, mut name) = (vec![], String::new());
        for line in page.lines() {
            if let Some(rest) = line.strip_prefix("<table id=\"") {
                name = rest.split('"').next().unwrap_or_default().to_string();
            }
            if line.starts_with("<tr") && line.contains("<td") {
                rows.push((name.clone(), cells(line)));
            }
        }
        Tables(rows)
    }

    /// Read from what a browser showed: in each line the table and the cells, after a tab each.
    pub fn of_seen(seen: &str) -> Tables {
        let row = |line: &str| {
            let mut cells = line.split('\t').map(|cell| plain(cell.trim()));
            (cells.next().unwrap_or_default(), cells.collect())
        };
        Tables(seen.lines().filter(|line| line.contains('\t')).map(row).collect())
    }

    /// The rows of one table.
    pub fn rows(&self, name: &str) -> Vec<&[String]> {
        self.0.iter().filter(|(of, _)| of == name).map(|(_, cells)| cells.as_slice()).collect()
    }

    /// Every row stands in the text too, in this order, with the same cells.
    pub fn in_text(&self, text: &str) -> Result<(), String> {
        let mut lines = text.lines().map(words);
        for (name, cells) in &self.0 {
            let filled: Vec<&str> = cells.iter().map(String::as_str).filter(|cell| !cell.is_empty()).collect();
            if !lines.any(|line| line == filled) {
                return Err(format!("the text has no row of {name} with {filled:?}"));
            }
        }
        Ok(())
    }
}

/// The cells of a line of text, which stand two spaces or more from each other.
fn words(line: &str) -> Vec<&str> {
    line.split("  ").map(str::trim).filter(|cell| !cell.is_empty()).collect()
}

fn cells(row: &str) -> Vec<String> {
    let cell = |part: &str| part.split_once('>').map(|(_, rest)| rest).unwrap_or_default().to_string();
    row.split("</td>").filter_map(|part| part.split_once("<td").map(|(_, rest)| plain(&cell(rest)))).collect()
}

/// Words as they were before they stood in a page.
fn plain(words: &str) -> String {
    words.replace("&lt;", "<").replace("&gt;", ">").replace("&quot;", "\"").replace("&amp;", "&")
}

/// The whole number of a cell, in the smallest unit that it shows: 1,357,531.09 is 135753109.
pub fn number(cell: &str) -> Result<i128, String> {
    let digits: String = cell.chars().filter(|mark| !matches!(mark, ',' | '.')).collect();
    digits.parse().map_err(|_| format!("'{cell}' is no number"))
}

/// The hundredths of a cell with an amount, which has two places, or none where it is whole and so is its contract's unit.
pub fn amount(cell: &str) -> Result<i128, String> {
    match cell.split_once('.') {
        Some((_, places)) if places.len() != 2 => Err(format!("'{cell}' is no amount")),
        Some(_) => number(cell),
        None => Ok(100 * number(cell)?),
    }
}
