//! Tables, as text for a terminal and for the document, and how a figure, a
//! ratio and a limit are written.

#[derive(Default)]
pub struct Table {
    pub head: Vec<String>,
    pub rows: Vec<Vec<String>>,
}

/// Where there is nothing to say.
pub const NONE: &str = "–";

impl Table {
    pub fn new(head: &[&str]) -> Self {
        Self {
            head: head.iter().map(ToString::to_string).collect(),
            rows: Vec::new(),
        }
    }
    pub fn plain(&self) -> String {
        let all = || std::iter::once(&self.head).chain(&self.rows);
        let wide = |place: usize| all().map(|row| row[place].chars().count()).max();
        let widths: Vec<usize> = (0..self.head.len()).filter_map(wide).collect();
        let mut text = String::new();
        for row in all() {
            let cells = row.iter().zip(&widths).enumerate();
            let line: Vec<String> = cells
                .map(|(place, (cell, width))| match place {
                    0 => format!("{cell:<width$}"),
                    _ => format!("{cell:>width$}"),
                })
                .collect();
            text += line.join("  ").trim_end();
            text.push('\n');
        }
        text
    }
    pub fn markdown(&self) -> String {
        let line = |cells: &[String]| format!("| {} |\n", cells.join(" | "));
        let mut text = line(&self.head);
        text += &format!("|---{}\n", "|--:".repeat(self.head.len() - 1) + "|");
        for row in &self.rows {
            text += &line(row);
        }
        text
    }
}

/// Three digits that count; thousands apart.
pub fn number(value: f64) -> String {
    if value < 10.0 {
        return format!("{value:.2}");
    }
    if value < 100.0 {
        return format!("{value:.1}");
    }
    let digits = format!("{value:.0}");
    let mut text = String::new();
    for (place, digit) in digits.chars().enumerate() {
        if place > 0 && (digits.len() - place) % 3 == 0 {
            text.push(',');
        }
        text.push(digit);
    }
    text
}

/// Two digits that count, however small.
pub fn ratio(value: f64) -> String {
    if value >= 100.0 {
        return number(value);
    }
    if value >= 0.1 || value <= 0.0 {
        return format!("{value:.2}");
    }
    let places = (-value.log10()).ceil() as usize + 1;
    format!("{value:.places$}")
}

/// The limit, and whether a ratio keeps it.
pub fn verdict(value: f64, limit: Option<f64>) -> String {
    match limit {
        None => NONE.into(),
        Some(limit) if value <= limit => format!("{limit}: met"),
        Some(limit) => format!("{limit}: missed"),
    }
}

#[cfg(test)]
mod tests {
    use super::*;

    #[test]
    fn figures() {
        let written = [0.5, 12.34, 999.6, 1_234_567.0].map(number);
        assert_eq!(written, ["0.50", "12.3", "1,000", "1,234,567"]);
        assert_eq!(
            [1.234, 0.15, 0.012, 0.000_123].map(ratio),
            ["1.23", "0.15", "0.012", "0.00012"]
        );
        assert_eq!(verdict(1.0, Some(1.0)), "1: met");
        assert_eq!(verdict(1.001, Some(1.0)), "1: missed");
        assert_eq!(verdict(9.0, None), NONE);
    }

    #[test]
    fn both_forms() {
        let mut table = Table::new(&["case", "ns"]);
        table.rows.push(vec!["idle".into(), "7".into()]);
        assert_eq!(table.plain(), "case  ns\nidle   7\n");
        assert_eq!(table.markdown(), "| case | ns |\n|---|--:|\n| idle | 7 |\n");
    }
}
