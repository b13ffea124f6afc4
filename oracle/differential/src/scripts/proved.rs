//! The proved player, through its C function. It answers 0 or a refusal's
//! number; the offset, the log bytes written and the run's length come through
//! a third array.
use super::{
    make::Script,
    player::{Played, Player, first_words, not_refused},
};
use crate::{
    compare::Start,
    layout::{MOST, Words, encode, no_states, read},
    states,
};
use model::RECORD;

// A lent array is its address and its length; `out` is always three numbers.
unsafe extern "C" {
    fn sci3_play(
        state: *mut u64,
        state_length: usize,
        script: *const u8,
        script_length: usize,
        log: *mut u8,
        log_length: usize,
        out: *mut u64,
    ) -> u64;
}

#[derive(Default)]
pub struct ProvedPlayer;

impl Player for ProvedPlayer {
    fn play(&mut self, state: &mut [u64], script: &[u8], log: &mut [u8]) -> Result<Played, String> {
        // Numbers that no run gives, so that one not written shows.
        let mut out = [u64::MAX; 3];
        // Safe: each address and length are those of one array, lent for the
        // call only, and no two of them overlap.
        let number = unsafe {
            sci3_play(
                state.as_mut_ptr(),
                state.len(),
                script.as_ptr(),
                script.len(),
                log.as_mut_ptr(),
                log.len(),
                out.as_mut_ptr(),
            )
        };
        if number > 10 {
            return Err(format!("sci3_play answers {number}"));
        }
        let [offset, written, length] = out;
        Ok(Played {
            number,
            offset,
            written,
            length,
        })
    }
}

/// Arrays that are no state: each is refused with 8, and nothing is touched.
/// Then places that are not in use, with other numbers there: every script
/// gives the same. How many were tried, and what differs.
pub fn arrays(seed: u64) -> (u64, Vec<String>) {
    let mut wrong = Vec::new();
    let mut tried = 0;
    for (what, array) in no_states(&first_words(&Start::Fresh)) {
        for script in [&[][..], &[7], &[8, 1], &[10], &[6, 3, 3, 1]] {
            tried += 1;
            if let Some(how) = not_refused(&mut ProvedPlayer, &array, script) {
                wrong.push(format!("{what}: {how}"));
            }
        }
    }
    for seed in seed..seed + 1000 {
        let case = states::given(seed);
        let Start::Given(state) = case.start else {
            continue;
        };
        let script = Script::of(&case.calls).bytes;
        let mut log = vec![0xa5; RECORD * case.calls.len()];
        let mut expected = encode(&state);
        let played = ProvedPlayer.play(&mut expected, &script, &mut log);
        for place in 17..51 {
            let mut words: Words = encode(&state);
            let plain = words[place];
            words[place] = MOST[place];
            if plain == MOST[place] || read(&words) != state {
                continue;
            }
            tried += 1;
            let mut other = vec![0xa5; log.len()];
            let met = ProvedPlayer.play(&mut words, &script, &mut other);
            // Where nothing ran, the place may stand as it was lent.
            if met != played || other != log || read(&words) != read(&expected) {
                wrong.push(format!("place {place} is not in use and counts: {state:?}"));
            }
        }
    }
    (tried, wrong)
}
