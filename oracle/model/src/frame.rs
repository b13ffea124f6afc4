//! Formats and words, from document 01's "Frame": the manual's cells in the
//! order they go out. The reference's own are not used, so that the field test
//! does not lean on the code it guards.
use reference::Format;

/// The format that SMR and SEMR give.
pub fn format(smr: u8, semr: u8) -> Format {
    let clocked = smr & 0x80 != 0;
    let data = match smr {
        _ if clocked => 8,
        _ if smr & 4 != 0 => 5,
        _ if smr & 0x40 != 0 => 7,
        _ => 8,
    };
    let parity = match data {
        _ if clocked => false,
        5 => smr & 0x60 == 0x60,
        _ => smr & 0x20 != 0,
    };
    Format {
        synchronous: clocked,
        data,
        parity,
        odd: smr & 0x10 != 0,
        stops: if smr & 8 != 0 { 2 } else { 1 },
        half_bit: match semr & 8 {
            0 => 32,
            _ => 16,
        },
    }
}

/// The number of the first stop cell: after the start, data and parity cells.
pub fn stop(f: Format) -> u8 {
    1 + f.data + u8::from(f.parity)
}

pub fn cells(f: Format) -> u8 {
    stop(f) + f.stops
}

/// The word of a value: one bit for each cell, the start cell lowest. A
/// clocked word is the value itself.
pub fn word(f: Format, value: u8) -> u16 {
    if f.synchronous {
        return value.into();
    }
    let data = (0..f.data).map(|bit| value >> bit & 1 != 0);
    let ones = data.clone().filter(|one| *one).count();
    let parity = f.parity.then_some((ones % 2 != 0) != f.odd);
    std::iter::once(false)
        .chain(data)
        .chain(parity)
        .chain((0..f.stops).map(|_| true))
        .zip(0..)
        .map(|(one, cell)| u16::from(one) << cell)
        .sum()
}

/// Whether some SMR and SEMR give this format.
pub(crate) fn exists(f: Format) -> bool {
    matches!(f.stops, 1 | 2)
        && matches!(f.half_bit, 16 | 32)
        && if f.synchronous {
            f.data == 8 && !f.parity
        } else {
            matches!(f.data, 5 | 7 | 8)
        }
}

/// Whether some value gives this word; the format exists. The data cells say
/// which value it could be.
pub(crate) fn holds(f: Format, w: u16) -> bool {
    let value = if f.synchronous { w } else { w >> 1 };
    w == word(f, value as u8)
}

#[cfg(test)]
mod tests {
    use super::*;
    use std::collections::HashSet;

    fn formats() -> HashSet<Format> {
        (0..=255)
            .flat_map(|smr| [0, 8].map(|semr| format(smr, semr)))
            .collect()
    }

    #[test]
    fn exists_is_some_smr_and_semr() {
        let all = formats();
        for data in 0..=10 {
            for stops in 0..=3 {
                for half_bit in [0, 8, 16, 24, 32, 64] {
                    for bits in 0..8 {
                        let f = Format {
                            synchronous: bits & 1 != 0,
                            data,
                            parity: bits & 2 != 0,
                            odd: bits & 4 != 0,
                            stops,
                            half_bit,
                        };
                        assert_eq!(exists(f), all.contains(&f), "{f:?}");
                    }
                }
            }
        }
    }

    #[test]
    fn holds_is_some_value() {
        for f in formats() {
            let all: HashSet<u16> = (0..=255).map(|value| word(f, value)).collect();
            for w in 0..=u16::MAX {
                assert_eq!(holds(f, w), all.contains(&w), "{f:?} {w:x}");
            }
        }
    }

    #[test]
    fn words_are_those_of_the_reference() {
        for smr in 0..=255 {
            for semr in [0, 8] {
                for value in 0..=255 {
                    assert_eq!(
                        word(format(smr, semr), value),
                        reference::Sci::oracle_word(smr, semr, value),
                        "{smr:x} {semr:x} {value:x}"
                    );
                }
            }
        }
    }
}
