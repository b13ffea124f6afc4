//! One input on both sides.
use super::{
    altered::AlteredPort,
    input::{Input, bounded, roomy},
};
use crate::{
    alter::ALTERATIONS,
    compare::{self, Start},
    layout::{Words, encode, read, within},
    port::{OraclePort, Port},
    scripts::{
        calls::{CallsPlayer, Wrong},
        compare::{Difference, Same, Table},
        player::{Case, Player, first_state, not_refused},
        run::shown,
        shrink::shrink,
    },
    states::moved,
};
use model::{Command, LIMIT, commands};

/// What stands beside the oracle: a player, and direct calls.
pub struct Side {
    pub player: fn(usize) -> Box<dyn Player>,
    pub port: fn(usize) -> Box<dyn Port>,
    /// Which of the wrong ones; 0 for those that have no number.
    pub number: usize,
}

/// Wrong sides, which a fuzzer must find: first the wrong players, then the
/// alterations.
pub const WRONG: usize = Wrong::ALL.len() + ALTERATIONS.len();

/// The wrong side of a number from 1 to `WRONG`, and its name.
pub fn wrong(number: usize) -> Option<(Side, &'static str)> {
    let place = number.checked_sub(1)?;
    let players = Wrong::ALL.len();
    if let Some(wrong) = Wrong::ALL.get(place) {
        let side = Side {
            player: |n| Box::new(CallsPlayer::wrong(OraclePort::default(), Wrong::ALL[n - 1])),
            port: |_| Box::new(OraclePort::default()),
            number,
        };
        return Some((side, wrong.text()));
    }
    let alteration = ALTERATIONS.get(place - players)?;
    fn altered(n: usize) -> AlteredPort {
        AlteredPort::new(&ALTERATIONS[n - 1 - Wrong::ALL.len()])
    }
    let side = Side {
        player: |n| Box::new(CallsPlayer::new(altered(n))),
        port: |n| Box::new(altered(n)),
        number,
    };
    Some((side, alteration.name))
}

/// The proved port.
#[cfg(feature = "player")]
pub fn proved() -> Side {
    Side {
        player: |_| Box::new(crate::scripts::proved::ProvedPlayer),
        port: |_| Box::new(crate::capi::CapiPort::default()),
        number: 0,
    }
}

pub struct Fuzz {
    side: Side,
    /// One for each fill of the log.
    tables: [Table; 2],
    /// Whether a difference is made smaller and told.
    reporting: bool,
}

impl Fuzz {
    pub fn new(side: Side) -> Self {
        let table = |turned| Table::filled((side.player)(side.number), turned);
        let tables = [table(0), table(0xff)];
        Self {
            side,
            tables,
            reporting: true,
        }
    }

    /// An input on both sides. Runs that are the same are shown to `watch`;
    /// an error is what differs, in words.
    pub fn play(&mut self, input: &Input, watch: &mut dyn FnMut(&Same)) -> Result<(), String> {
        let mut start = Start::Fresh;
        if let Some(earlier) = &input.earlier {
            let script = bounded(earlier, input.long).to_vec();
            let case = Case {
                start,
                log: roomy(&script),
                script,
            };
            let mut left = None;
            self.script(input, &case, None, &mut |same| {
                left = Some(*same.state);
                watch(same);
            })?;
            start = left.map_or(Start::Fresh, Start::Given);
        }
        if let Some(distance) = input.distance {
            let state = first_state(&start);
            start = Start::Given(moved(&state, LIMIT - u32::from(distance)));
        }
        let mut array = None;
        if !input.numbers.is_empty() {
            let words = input.array(&encode(&first_state(&start)));
            let Some(words) = within(&words) else {
                return self.no_state(&words, &input.script);
            };
            start = Start::Given(read(&words));
            array = Some(words);
        }
        let script = bounded(&input.script, input.long).to_vec();
        let case = Case {
            start,
            log: input.log_length(),
            script,
        };
        self.script(input, &case, array, watch)?;
        if input.calls {
            self.calls(case)?;
        }
        Ok(())
    }

    /// Whether an input differs, without a report of it.
    pub fn differs(&mut self, input: &Input) -> bool {
        self.reporting = false;
        let differs = self.play(input, &mut |_| {}).is_err();
        self.reporting = true;
        differs
    }

    fn script(
        &mut self,
        input: &Input,
        case: &Case,
        array: Option<Words>,
        watch: &mut dyn FnMut(&Same),
    ) -> Result<(), String> {
        let table = &mut self.tables[usize::from(input.turned)];
        let result = match &array {
            Some(array) => table.play_on(array, case, watch),
            None => table.play(case, watch),
        };
        result.map_err(|difference| match self.reporting {
            true => report(table, case, *difference),
            false => difference.to_string(),
        })
    }

    /// What can be read of the script, as direct calls: pins and interrupt
    /// request after each. A script has no operands above their ranges, so
    /// nine bytes behind it are one more call: kind and two operands.
    fn calls(&mut self, case: Case) -> Result<(), String> {
        let (mut calls, at) = commands(&case.script);
        if let Some((kind, operands)) = case.script[at..].split_first()
            && let Some((a, operands)) = operands.split_first_chunk()
            && let Some((b, _)) = operands.split_first_chunk()
        {
            let (a, b) = (u32::from_le_bytes(*a), u32::from_le_bytes(*b));
            let kind = (*kind).into();
            calls.push(Command { kind, a, b });
        }
        let (mut oracle, mut port) = (OraclePort::default(), (self.side.port)(self.side.number));
        let case = compare::Case {
            start: case.start,
            calls,
        };
        compare::play(&mut oracle, &mut *port, &case, None, &mut |_| {})
            .map_err(|difference| format!("DIFFERENCE of direct calls {difference}\n  {case:?}"))
    }

    fn no_state(&mut self, array: &[u64], script: &[u8]) -> Result<(), String> {
        let mut player = (self.side.player)(self.side.number);
        match not_refused(&mut *player, array, script) {
            Some(how) => Err(format!(
                "DIFFERENCE on an array that is no state: {how}\n  {array:?}\n  {script:02X?}"
            )),
            None => Ok(()),
        }
    }
}

/// The script as it was met, and the smallest one found.
fn report(table: &mut Table, case: &Case, difference: Difference) -> String {
    let mut lines = vec![format!("DIFFERENCE {difference}")];
    lines.extend(shown(case, &difference));
    // An array with numbers in unused places may not differ without them.
    if table.play(case, &mut |_| {}).is_err() {
        let (case, difference) = shrink(table, case, difference);
        lines.push(format!("  smallest script found: {difference}"));
        lines.extend(shown(&case, &difference));
    }
    lines.join("\n")
}
