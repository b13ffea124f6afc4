//! Stand-in for the bus. The port only names how a repeated write behaves,
//! for a processor that the oracle does not have.
pub(crate) enum Recurrence {
    Settled,
    Varies,
}
