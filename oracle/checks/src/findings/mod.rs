//! The findings of docs/DIFFERENCES.md, by their numbers there, and what else
//! was found. Where a finding has a sentence and no figure, the figure expected
//! is worked out from the sentence by hand.
mod clocks;
mod measured;
mod open;
mod reference;
mod registers;
mod rules;
mod runs;
mod words;

use crate::Part;

#[derive(Clone)]
pub struct Finding {
    /// Its number in docs/DIFFERENCES.md, or its subject.
    pub name: String,
    /// The reference has no script, no log and no refusal: what these show is
    /// our code from document 01, and a second reading of it.
    pub own: bool,
    pub parts: Vec<Part>,
}

impl Finding {
    pub fn confirmed(&self) -> bool {
        !self.parts.is_empty() && self.parts.iter().all(Part::agrees)
    }
    /// The finding's line: what was expected, what the reference did.
    pub fn line(&self) -> String {
        format!(
            "{} | expected: {} | {}: {} | {}",
            self.name,
            self.joined(|part| &part.expected),
            if self.own {
                "oracle's own rules"
            } else {
                "Rust"
            },
            self.joined(|part| &part.met),
            if self.confirmed() {
                "confirmed"
            } else {
                "DIFFERS"
            }
        )
    }
    /// The parts' texts in a row, equal neighbours counted.
    fn joined(&self, text: fn(&Part) -> &str) -> String {
        let texts: Vec<&str> = self.parts.iter().map(text).collect();
        let runs: Vec<String> = texts
            .chunk_by(|a, b| a == b)
            .map(|run| match run.len() {
                1 => run[0].to_string(),
                times => format!("{times} times {}", run[0]),
            })
            .collect();
        runs.join("; ")
    }
}

/// Those of the document. `size` is how many random runs each measured one
/// takes.
pub fn all(size: u32) -> Vec<Finding> {
    let numbered = [
        reference::cached_edge(),
        reference::log_overflow(),
        measured::extra_pass(size),
        measured::order(size),
        registers::status_write(),
        registers::seen_bits(),
        registers::data_write(),
        registers::end_of_write(),
        registers::reads(),
        registers::resets(),
        clocks::edge_bit(),
        clocks::pins(),
        clocks::phase(),
        clocks::clocked_edge(size),
        words::tallies(),
        words::arming(),
        words::mark(),
        clocks::sources(),
        measured::glitch(size),
        words::stepped(),
    ];
    let finding = |(number, parts): (u8, _)| Finding {
        name: number.to_string(),
        own: false,
        parts,
    };
    (1..).zip(numbered).map(finding).collect()
}

/// The scripts for fresh ports of those findings, with their numbers.
pub fn scripts() -> Vec<(String, String)> {
    let scripts = |finding: Finding| {
        let of = move |part: Part| Some((finding.name.clone(), part.script?));
        finding.parts.into_iter().filter_map(of)
    };
    all(0).into_iter().flat_map(scripts).collect()
}

/// Document 01's rules, which the reference has not, and `bit_start`.
pub fn others(size: u32) -> Vec<Finding> {
    [
        ("4 and 8", true, open::printable()),
        ("capitals", true, open::capitals()),
        ("module off", true, registers::module_off()),
        ("order of refusals", true, rules::order()),
        ("field test", false, measured::field_test(size)),
        ("bit_start", false, measured::bit_start(size)),
    ]
    .map(|(name, own, parts)| Finding {
        name: name.into(),
        own,
        parts,
    })
    .into()
}
