//! What the fuzzer begins with: scripts of hexadecimal text, the short ones of
//! the replay list, random cases with every kind of start, and given states with
//! the calls that are aimed at them.
use super::input::{Input, roomy};
use crate::{
    compare::{self, Start},
    layout::encode,
    scripts::{
        list,
        make::{self, Script},
        player::{Case, first_words},
    },
    states,
};
use model::bytes;

/// Bytes of a seed at most.
pub const LONGEST: usize = 512;
const SEED: u64 = 0x5c13_0002;
const RANDOM: u64 = 1000;
const AIMED: u64 = 1000;

/// A script written as in `examples/`.
pub fn text(text: &str) -> Vec<u8> {
    let lines = text
        .lines()
        .map(|line| line.split('#').next().unwrap_or(""));
    let script = lines.flat_map(bytes).collect();
    let input = Input {
        script,
        ..Input::default()
    };
    input.write()
}

/// A case as an input.
pub fn of(case: &Case) -> Input {
    let numbers = match &case.start {
        Start::Fresh => Vec::new(),
        Start::Given(state) => Input::numbers(&first_words(&Start::Fresh), &encode(state)),
    };
    Input {
        numbers,
        log: Some(case.log as u16),
        script: case.script.clone(),
        ..Input::default()
    }
}

/// A state and the calls on it, as an input; one in four fails the field test.
fn aimed(seed: u64) -> Input {
    let compare::Case { start, calls } = match seed % 4 {
        0 => states::failing(seed).1,
        _ => states::given(seed),
    };
    let script = Script::of(&calls).bytes;
    let case = Case {
        start,
        log: roomy(&script),
        script,
    };
    Input {
        calls: true,
        ..of(&case)
    }
}

/// All but the texts.
pub fn all() -> Vec<Vec<u8>> {
    let items = list::items().into_iter().map(|item| Input {
        log: Some(item.log as u16),
        script: item.script,
        ..Input::default()
    });
    let random = (SEED..SEED + RANDOM).map(|seed| Input {
        calls: seed % 4 == 0,
        turned: seed % 2 == 0,
        ..of(&make::case(seed, None).1)
    });
    let aimed = (SEED..SEED + AIMED).map(aimed);
    let inputs = items.chain(random).chain(aimed).map(|input| input.write());
    inputs.filter(|seed| seed.len() <= LONGEST).collect()
}
