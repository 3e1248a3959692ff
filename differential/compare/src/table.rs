//! A table of text, printed in columns or as markdown.

use std::ops::Range;

pub struct Table {
    /// The head, then a row for each line.
    rows: Vec<Vec<String>>,
    /// Which columns are numbers; the others are words.
    numbers: Range<usize>,
}

impl Table {
    /// With the cells of the head one after another, ` | ` between.
    pub fn new(head: &str, numbers: Range<usize>) -> Self {
        Self { rows: vec![head.split(" | ").map(str::to_owned).collect()], numbers }
    }

    pub fn row(&mut self, cells: Vec<String>) {
        assert_eq!(cells.len(), self.rows[0].len(), "a row has a cell in each column");
        self.rows.push(cells);
    }

    /// In columns: words to the left, numbers to the right.
    pub fn aligned(&self) -> String {
        let widths = self.widths();
        let line = |row: &Vec<String>| {
            let cells: Vec<String> = row
                .iter()
                .enumerate()
                .map(|(column, cell)| {
                    let width = widths[column];
                    if self.numbers.contains(&column) {
                        format!("{cell:>width$}")
                    } else {
                        format!("{cell:<width$}")
                    }
                })
                .collect();
            cells.join("  ").trim_end().to_owned() + "\n"
        };
        self.rows.iter().map(line).collect()
    }

    /// As markdown.
    pub fn markdown(&self) -> String {
        let line = |row: &[String]| format!("| {} |\n", row.join(" | "));
        let rule: Vec<String> = (0..self.rows[0].len())
            .map(|column| if self.numbers.contains(&column) { "---:" } else { "---" }.to_owned())
            .collect();
        let (head, body) = self.rows.split_first().expect("a table has a head");
        let body: String = body.iter().map(|row| line(row)).collect();
        line(head) + &line(&rule) + &body
    }

    fn widths(&self) -> Vec<usize> {
        (0..self.rows[0].len())
            .map(|column| self.rows.iter().map(|row| row[column].len()).max().unwrap_or(0))
            .collect()
    }
}
