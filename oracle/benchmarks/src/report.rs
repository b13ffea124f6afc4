//! What is printed: the figures of every side with ours over each, and whether
//! the limits are kept. The document's tables are the same in Markdown.
use crate::{
    cases::{PLANS, Plan},
    measure::Row,
    table::{NONE, Table, number, ratio, verdict},
};

/// How a cell is taken from a row: the figure of a side, and ours over it.
struct Column {
    figure: fn(&Row, usize) -> Option<f64>,
    ratio: fn(&Row, usize) -> Option<f64>,
}

const TIME: Column = Column {
    figure: |row, place| row.times[place].map(|times| times.least),
    ratio: Row::ratio,
};
const COUNT: Column = Column {
    figure: |row, place| row.counts[place],
    ratio: Row::count_ratio,
};

impl Column {
    fn number(&self, row: &Row, place: usize) -> String {
        (self.figure)(row, place).map_or(NONE.into(), number)
    }
    fn ratio(&self, row: &Row, place: usize) -> String {
        (self.ratio)(row, place).map_or(NONE.into(), ratio)
    }
}

fn limited(value: Option<f64>, limit: Option<f64>) -> String {
    value.map_or(NONE.into(), |value| verdict(value, limit))
}

/// Scripts, by time; the limits are those of time.
pub fn playing(rows: &[Row]) -> Table {
    let mut table = Table::new(&[
        "case",
        "unit",
        "ours",
        "events",
        "ours/events",
        "median",
        "limit",
        "list",
        "ours/list",
        "limit",
        "stepped",
        "ours/stepped",
        "limit",
    ]);
    for row in rows {
        let median = row.median_ratio(1).map_or(NONE.into(), ratio);
        table.rows.push(vec![
            row.name.clone(),
            row.unit.into(),
            TIME.number(row, 0),
            TIME.number(row, 1),
            TIME.ratio(row, 1),
            median,
            limited(row.ratio(1), row.over_events),
            TIME.number(row, 2),
            TIME.ratio(row, 2),
            limited(row.ratio(2), row.over_events),
            TIME.number(row, 3),
            TIME.ratio(row, 3),
            limited(row.ratio(3), row.over_stepped),
        ]);
    }
    table
}

/// Scripts, by instructions.
pub fn playing_counts(rows: &[Row]) -> Table {
    let head = [
        "case",
        "unit",
        "ours",
        "events",
        "ours/events",
        "list",
        "ours/list",
        "stepped",
        "ours/stepped",
    ];
    others(&head, &COUNT, rows)
}

/// Single calls, by time and by instructions.
pub fn calling(rows: &[Row]) -> Table {
    others(&CALLS, &TIME, rows)
}
pub fn calling_counts(rows: &[Row]) -> Table {
    others(&CALLS, &COUNT, rows)
}
const CALLS: [&str; 7] = [
    "case",
    "unit",
    "ours",
    "methods",
    "ours/methods",
    "array",
    "ours/array",
];

/// Ours, then each other side with ours over it.
fn others(head: &[&str], column: &Column, rows: &[Row]) -> Table {
    let mut table = Table::new(head);
    for row in rows {
        let mut cells = vec![row.name.clone(), row.unit.into(), column.number(row, 0)];
        for place in 1..row.times.len() {
            cells.extend([column.number(row, place), column.ratio(row, place)]);
        }
        table.rows.push(cells);
    }
    table
}

/// What each case's script holds.
pub fn scripts(plans: &[&Plan]) -> Table {
    let mut table = Table::new(&[
        "case",
        "script bytes",
        "commands",
        "halves waited for",
        "cycles",
        "units",
    ]);
    for plan in plans {
        let case = plan.case();
        let sizes = [
            case.script.len(),
            case.commands.len(),
            case.halves() as usize,
            case.cycles() as usize,
            case.units,
        ];
        let mut cells = vec![plan.name.to_string()];
        cells.extend(sizes.map(number_of));
        if let Some(last) = cells.last_mut() {
            *last += &format!(" {}s", plan.unit.name());
        }
        table.rows.push(cells);
    }
    table
}

fn number_of(size: usize) -> String {
    if size < 100 {
        size.to_string()
    } else {
        number(size as f64)
    }
}

/// The plans whose name holds the text.
pub fn plans(text: &str) -> Vec<&'static Plan> {
    const ALL: &[Plan] = &PLANS;
    ALL.iter().filter(|plan| plan.name.contains(text)).collect()
}

/// How many limits of time are kept, and how many there are.
pub fn kept(rows: &[Row]) -> (usize, usize) {
    let all = rows.iter().flat_map(|row| {
        [
            (row.ratio(1), row.over_events),
            (row.ratio(3), row.over_stepped),
        ]
    });
    let limits: Vec<bool> = all
        .filter_map(|(ratio, limit)| Some(ratio? <= limit?))
        .collect();
    (limits.iter().filter(|kept| **kept).count(), limits.len())
}
