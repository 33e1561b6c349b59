//! Text in aligned columns.

/// Where the words of a column stand.
#[derive(Clone, Copy, PartialEq, Eq)]
pub enum Side {
    Left,
    Right,
}

/// A heading and rows; every row has a word for each column.
pub struct Table {
    columns: Vec<(&'static str, Side)>,
    rows: Vec<Vec<String>>,
}

impl Table {
    pub fn new(columns: &[(&'static str, Side)]) -> Table {
        Table { columns: columns.to_vec(), rows: Vec::new() }
    }

    /// Without a heading.
    pub fn pairs() -> Table {
        Table::new(&[("", Side::Left), ("", Side::Left)])
    }

    pub fn row(&mut self, words: Vec<String>) {
        self.rows.push(words);
    }

    pub fn pair(&mut self, name: &str, value: impl ToString) {
        self.row(vec![name.to_string(), value.to_string()]);
    }

    pub fn is_empty(&self) -> bool {
        self.rows.is_empty()
    }

    /// The lines, each after two spaces.
    pub fn lines(&self) -> Vec<String> {
        let heading: Vec<String> = self.columns.iter().map(|(name, _)| name.to_string()).collect();
        let has_heading = heading.iter().any(|name| !name.is_empty());
        let rows = has_heading.then_some(&heading).into_iter().chain(&self.rows);
        let widths = self.widths(&heading);
        rows.map(|row| self.line(row, &widths)).collect()
    }

    fn widths(&self, heading: &[String]) -> Vec<usize> {
        let width = |i: usize| self.rows.iter().map(|row| row[i].chars().count()).chain([heading[i].chars().count()]).max().unwrap_or(0);
        (0..heading.len()).map(width).collect()
    }

    fn line(&self, row: &[String], widths: &[usize]) -> String {
        let mut line = String::new();
        for ((word, width), (_, side)) in row.iter().zip(widths).zip(&self.columns) {
            line.push_str("  ");
            line.push_str(&match side {
                Side::Left => format!("{word:<width$}"),
                Side::Right => format!("{word:>width$}"),
            });
        }
        line.trim_end().to_string()
    }
}
