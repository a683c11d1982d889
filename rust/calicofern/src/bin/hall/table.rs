//! Columns of text for a terminal.

/// Rows of cells, each column as wide as its widest cell. Columns of numbers are set to the right; the last is not filled up.
pub struct Table {
    rows: Vec<Vec<String>>,
    left: &'static [&'static str],
}

impl Table {
    /// `left`: the titles of the columns that are set to the left.
    pub fn new(titles: &[&str], left: &'static [&'static str]) -> Self {
        Table { rows: vec![titles.iter().map(|title| title.to_string()).collect()], left }
    }

    pub fn row(&mut self, cells: Vec<String>) {
        self.rows.push(cells);
    }

    /// All lines, the titles first.
    pub fn text(&self) -> String {
        self.lines().concat()
    }

    /// A line for each row, the titles first.
    pub fn lines(&self) -> Vec<String> {
        let titles = &self.rows[0];
        let width = |column: usize| self.rows.iter().filter_map(|row| row.get(column)).map(|cell| cell.chars().count()).max().unwrap_or(0);
        let widths: Vec<usize> = (0..titles.len()).map(width).collect();
        let line = |row: &Vec<String>| {
            let cells = row.iter().zip(&widths).zip(titles).map(|((cell, width), title)| {
                let width = *width;
                if self.left.contains(&title.as_str()) {
                    format!("{cell:<width$}")
                } else {
                    format!("{cell:>width$}")
                }
            });
            format!("{}\n", cells.collect::<Vec<_>>().join("  ").trim_end())
        };
        self.rows.iter().map(line).collect()
    }
}

/// A number with a comma between each three digits.
pub fn grouped(number: impl Into<u64>) -> String {
    let digits = number.into().to_string();
    let mut text = String::new();
    for (position, digit) in digits.chars().enumerate() {
        if position > 0 && (digits.len() - position) % 3 == 0 {
            text.push(',');
        }
        text.push(digit);
    }
    text
}

/// A number and what it counts: 1 model, 2 models.
pub fn counted(number: u64, one: &str, many: &str) -> String {
    format!("{} {}", grouped(number), if number == 1 { one } else { many })
}

#[cfg(test)]
mod tests {
    use super::*;

    #[test]
    fn digits_in_threes() {
        for (number, text) in [(0u64, "0"), (999, "999"), (1000, "1,000"), (1234567, "1,234,567")] {
            assert_eq!(grouped(number), text);
        }
        assert_eq!(counted(1, "model", "models"), "1 model");
        assert_eq!(counted(0, "model", "models"), "0 models");
    }

    #[test]
    fn columns_are_as_wide_as_their_cells() {
        let mut table = Table::new(&["n", "name", "more"], &["name", "more"]);
        table.row(vec!["10".to_string(), "a".to_string(), "x".to_string()]);
        assert_eq!(table.text(), " n  name  more\n10  a     x\n");
        assert_eq!(table.lines().len(), 2);
    }
}
