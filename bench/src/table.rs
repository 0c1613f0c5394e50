//! Tables for the terminal, or as Markdown for docs/BENCHMARKS.md.

pub struct Table {
    markdown: bool,
    heads: Vec<String>,
    rows: Vec<Vec<String>>,
}

impl Table {
    pub fn new(markdown: bool, heads: &[&str]) -> Table {
        Table { markdown, heads: heads.iter().map(|s| s.to_string()).collect(), rows: Vec::new() }
    }

    pub fn add(&mut self, row: Vec<String>) {
        self.rows.push(row);
    }

    pub fn print(&self, title: &str) {
        if self.rows.is_empty() {
            return;
        }
        let widths: Vec<usize> = (0..self.heads.len())
            .map(|k| self.rows.iter().chain([&self.heads]).map(|row| row[k].chars().count()).max().unwrap_or(0))
            .collect();
        let between = if self.markdown { " | " } else { "  " };
        let edge = if self.markdown { "|" } else { "" };
        let line = |row: &Vec<String>| {
            let cells: Vec<String> =
                row.iter().zip(&widths).map(|(cell, width)| format!("{cell:<width$}", width = *width)).collect();
            let line = cells.join(between);
            if self.markdown { format!("| {line} |") } else { line.trim_end().to_string() }
        };
        println!("{}{title}\n", if self.markdown { "### " } else { "" });
        println!("{}", line(&self.heads));
        if self.markdown {
            println!("{edge}{}", "---|".repeat(self.heads.len()));
        }
        for row in &self.rows {
            println!("{}", line(row));
        }
        println!();
    }
}
