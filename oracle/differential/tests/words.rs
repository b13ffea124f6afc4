//! Every word of the reference's port beside frame.rs, and wrong words, each of
//! which must be reported. What needs the proved port is in tests/capi.rs.
use differential::{
    OraclePort, Pins, Port,
    words::{WORDS, all},
};
use model::{Answer, Character, Command, State, Tx, registers::TDR};

#[test]
fn every_word_is_seen_and_none_differs() {
    let outcome = all(&mut OraclePort::default());
    assert_eq!(outcome.wrong, Vec::<String>::new());
    assert_eq!((outcome.compared, WORDS), (131_072, 131_072));
    // 48 of the 256 SMR have a parity cell.
    assert_eq!(outcome.parity, 48 * 2 * 256);
}

/// The reference's port, with other words.
struct Altered {
    port: OraclePort,
    value: u8,
    word: fn(Character, u8) -> u16,
}

impl Port for Altered {
    fn fresh(&mut self) {
        self.port.fresh();
    }
    fn set(&mut self, state: &State) {
        self.port.set(state);
    }
    fn state(&self) -> Result<State, String> {
        let mut state = self.port.state()?;
        if let Some(
            Tx::Blocked { character } | Tx::Start { character, .. } | Tx::Data { character, .. },
        ) = &mut state.tx
        {
            character.word = (self.word)(*character, self.value);
        }
        Ok(state)
    }
    fn call(&mut self, call: Command) -> Result<Answer, String> {
        if (call.kind, call.a) == (2, TDR) {
            self.value = call.b as u8;
        }
        self.port.call(call)
    }
    fn cause(&self) -> u64 {
        self.port.cause()
    }
    fn pins(&self) -> Result<Pins, String> {
        self.port.pins()
    }
    fn interrupt(&self) -> Result<bool, String> {
        self.port.interrupt()
    }
}

/// The word with a parity bit that is other by so many ones.
fn more_ones(c: Character, ones: u32) -> u16 {
    let bit = u16::from(c.format.parity) * (ones % 2) as u16;
    c.word ^ bit << (c.format.data + 1)
}

type Wrong = (&'static str, fn(Character, u8) -> u16, usize);

/// Each with how many words it changes: those with a parity cell and odd; those
/// with a parity cell; half of those of five or seven bits with a parity cell.
const WRONG: [Wrong; 3] = [
    (
        "odd bit left out",
        |c, _| more_ones(c, c.format.odd.into()),
        24 * 2 * 256,
    ),
    ("start cell counted", |c, _| more_ones(c, 1), 48 * 2 * 256),
    (
        "ones of all eight bits",
        |c, value| more_ones(c, (u16::from(value) >> c.format.data).count_ones()),
        32 * 2 * 128,
    ),
];

#[test]
fn each_wrong_word_is_reported() {
    for (name, word, count) in WRONG {
        let outcome = all(&mut Altered {
            port: OraclePort::default(),
            value: 0,
            word,
        });
        assert_eq!(
            (outcome.compared, outcome.wrong.len()),
            (WORDS, count),
            "{name}"
        );
        assert!(!outcome.good(), "{name}");
    }
}
