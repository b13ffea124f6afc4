//! Runs over the families, by seed.
use crate::{
    alter::{ALTERATIONS, Alteration},
    compare::{Case, Difference, Start, play},
    coverage::Coverage,
    lists,
    port::Port,
    shrink::{last_call, shrink},
    states,
};
use std::time::{Duration, Instant};

/// Both sides.
pub struct Sides {
    pub reference: Box<dyn Port>,
    pub port: Box<dyn Port>,
}

impl Sides {
    pub fn both(&mut self) -> (&mut dyn Port, &mut dyn Port) {
        (&mut *self.reference, &mut *self.port)
    }
}

#[derive(Clone, Copy, Debug, PartialEq, Eq)]
pub enum Family {
    /// Lists from a fresh port.
    Fresh,
    /// One call or a short list from a state that passes the field test.
    Given,
    /// Calls on a state that fails it in exactly one clause.
    Failing,
}

impl Family {
    pub const ALL: [Self; 3] = [Self::Fresh, Self::Given, Self::Failing];
    pub fn letter(self) -> char {
        match self {
            Self::Fresh => 'a',
            Self::Given => 'b',
            Self::Failing => 'c',
        }
    }
    pub fn from_letter(text: &str) -> Option<Self> {
        Self::ALL
            .into_iter()
            .find(|family| text == family.letter().to_string())
    }
    /// The family of a seed where all are run.
    fn of(seed: u64) -> Self {
        match seed % 32 {
            0 => Self::Fresh,
            1 => Self::Failing,
            _ => Self::Given,
        }
    }
}

pub struct Plan {
    pub family: Option<Family>,
    /// The first list's; each list has the next.
    pub seed: u64,
    /// Ends with the list that reaches so many calls, or after so long.
    pub calls: u64,
    pub time: Option<Duration>,
}

/// A list on which the sides differ.
pub struct Found {
    pub family: Family,
    pub seed: u64,
    pub about: String,
    pub case: Case,
    pub difference: Difference,
}

#[derive(Default)]
pub struct Outcome {
    /// Calls of each family.
    pub calls: [u64; 3],
    pub lists: u64,
    pub coverage: Coverage,
    pub found: Option<Found>,
}

impl Outcome {
    pub fn total(&self) -> u64 {
        self.calls.iter().sum()
    }
}

/// The list of a seed, what it is, and what it counts for before it runs.
fn case(family: Family, seed: u64, coverage: &mut Coverage) -> (String, Case) {
    match family {
        Family::Fresh => {
            let (profile, calls) = lists::list(seed);
            coverage.profile(profile);
            let case = Case {
                start: Start::Fresh,
                calls,
            };
            (format!("profile {profile}"), case)
        }
        Family::Given => ("given state".into(), states::given(seed)),
        Family::Failing => {
            let (broken, case) = states::failing(seed);
            coverage.broken(broken);
            (
                format!("field test fails: {}", states::BREAKS[broken].0),
                case,
            )
        }
    }
}

/// Run until the plan's end or the first difference.
pub fn run(sides: &mut Sides, plan: &Plan, alteration: Option<&Alteration>) -> Outcome {
    let begun = Instant::now();
    let mut outcome = Outcome::default();
    let mut seed = plan.seed;
    let ended = |outcome: &Outcome| match plan.time {
        Some(time) => begun.elapsed() >= time,
        None => outcome.total() >= plan.calls,
    };
    while !ended(&outcome) {
        let family = plan.family.unwrap_or_else(|| Family::of(seed));
        let coverage = &mut outcome.coverage;
        let (about, case) = case(family, seed, coverage);
        let (reference, port) = sides.both();
        let mut calls = 0;
        let result = play(reference, port, &case, alteration, &mut |step| {
            calls += 1;
            coverage.note(step);
        });
        outcome.calls[family as usize] += calls;
        outcome.lists += 1;
        if let Err(difference) = result {
            outcome.found = Some(Found {
                family,
                seed,
                about,
                case,
                difference,
            });
            return outcome;
        }
        seed = seed.wrapping_add(1);
    }
    outcome
}

/// What is printed of a difference: the seed, the first difference, the list
/// made small, and the last call alone where it suffices.
pub fn report(sides: &mut Sides, found: &Found, alteration: Option<&Alteration>) -> String {
    let mut lines = vec![
        format!(
            "DIFFERENCE in family {}, seed {} ({}), {}",
            found.family.letter(),
            found.seed,
            found.about,
            found.difference
        ),
        format!(
            "  again: --family {} --seed {} --calls 1",
            found.family.letter(),
            found.seed
        ),
    ];
    let (case, difference) = shrink(sides, alteration, &found.case, found.difference.clone());
    lines.push(format!("  smallest list found: {difference}"));
    lines.extend(shown(&case));
    if let Some((case, difference)) = last_call(sides, alteration, &case) {
        lines.push(format!("  its last call alone: {difference}"));
        lines.extend(shown(&case));
    }
    lines.join("\n")
}

fn shown(case: &Case) -> Vec<String> {
    let mut lines = Vec::new();
    match &case.start {
        Start::Fresh => lines.push("    from a fresh port".into()),
        Start::Given(state) => lines.push(format!("    from {state:?}")),
    }
    for (number, c) in case.calls.iter().enumerate() {
        let (a, b) = (c.a, c.b);
        let operands = match c.kind {
            1 => format!("{a:x}"),
            2 => format!("{a:x} {b:02x}"),
            5 => format!("{a} {b}"),
            7 => String::new(),
            _ => a.to_string(),
        };
        lines.push(format!("    {}: kind {} {operands}", number + 1, c.kind));
    }
    lines
}

/// How one alteration fared.
pub struct Tried {
    pub name: &'static str,
    pub calls: u64,
    /// The field named and the calls left, if a difference was reported.
    pub found: Option<(String, usize)>,
}

/// Run with each alteration until it is reported, for so many calls at most.
/// The list made small must show a difference too, and none without the
/// alteration.
pub fn self_test(sides: &mut Sides, seed: u64, calls: u64) -> Vec<Tried> {
    let plan = Plan {
        family: None,
        seed,
        calls,
        time: None,
    };
    let mut all = Vec::new();
    for alteration in ALTERATIONS {
        let outcome = run(sides, &plan, Some(alteration));
        let found = outcome.found.as_ref().and_then(|found| {
            let given = found.difference.clone();
            let (case, difference) = shrink(sides, Some(alteration), &found.case, given);
            let (reference, port) = sides.both();
            let stands = play(reference, port, &case, Some(alteration), &mut |_| {}).is_err()
                && play(reference, port, &case, None, &mut |_| {}).is_ok();
            stands.then_some((difference.field, case.calls.len()))
        });
        all.push(Tried {
            name: alteration.name,
            calls: outcome.total(),
            found,
        });
    }
    all
}
