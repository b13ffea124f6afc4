//! What `runner` and `scripts` share: how options are read, and what the last
//! line says.
use std::{
    env::{self, Args},
    iter::Skip,
    process::ExitCode,
    time::Instant,
};

/// The command line, one option after the other.
pub struct Arguments {
    rest: Skip<Args>,
    name: String,
}

impl Arguments {
    pub fn of_process() -> Self {
        Self {
            rest: env::args().skip(1),
            name: String::new(),
        }
    }
    /// The next option's name.
    pub fn option(&mut self) -> Option<String> {
        self.name = self.rest.next()?;
        Some(self.name.clone())
    }
    /// The value of that option.
    pub fn value(&mut self) -> Result<String, String> {
        let value = self.rest.next();
        value.ok_or_else(|| format!("{} needs a value", self.name))
    }
    pub fn number(&mut self) -> Result<u64, String> {
        let text = self.value()?;
        text.parse().map_err(|_| format!("{text} is no number"))
    }
}

/// A part of the last line, and whether all is well there.
pub type Said = (String, bool);

/// The last line, part by part.
pub struct Summary {
    begun: Instant,
    parts: Vec<Said>,
}

impl Summary {
    pub fn begin() -> Self {
        Self {
            begun: Instant::now(),
            parts: Vec::new(),
        }
    }
    pub fn add(&mut self, part: Said) {
        self.parts.push(part);
    }
    /// Said before the parts that were there earlier.
    pub fn add_first(&mut self, part: Said) {
        self.parts.insert(0, part);
    }
    pub fn note(&mut self, text: &str) {
        self.add((text.into(), true));
    }
    /// How many arrays were tried, and what was wrong.
    pub fn arrays(&mut self, (tried, wrong): (u64, Vec<String>)) {
        for line in wrong.iter().take(20) {
            println!("ARRAY {line}");
        }
        let text = format!("{tried} arrays, {} wrong", wrong.len());
        self.add((text, wrong.is_empty()));
    }
    /// Prints the line. The status is 0 only if all is well.
    pub fn end(self, program: &str) -> ExitCode {
        let seconds = self.begun.elapsed().as_secs_f64();
        let good = self.parts.iter().all(|(_, good)| *good);
        let said: Vec<String> = self.parts.into_iter().map(|(text, _)| text).collect();
        println!(
            "{program}: {}, {seconds:.0} s: {}",
            said.join("; "),
            if good { "ok" } else { "FAILED" }
        );
        ExitCode::from(u8::from(!good))
    }
}

/// What is said of the counts, of which these are zero. Where coverage is
/// asserted, they are printed and none may be.
pub fn coverage(counts: usize, zero: &[String], asserted: bool) -> Said {
    if !asserted {
        let text = format!("coverage not asserted ({} of {counts} zero)", zero.len());
        return (text, true);
    }
    for name in zero {
        println!("COVERAGE zero: {name}");
    }
    let text = format!("coverage {} of {counts}", counts - zero.len());
    (text, zero.is_empty())
}
