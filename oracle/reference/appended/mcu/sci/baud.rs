
// ---- Below: appended by the oracle's build script, not the reference. ----

/// What the oracle must see and set of the counter.
impl Baud {
    pub(super) fn oracle_last(&self) -> Time {
        self.last
    }
    /// Whether the edge time of the present half is still to be found.
    pub(super) fn oracle_stale(&self) -> bool {
        self.stale
    }
    pub(super) fn oracle_selection(&self) -> (Tap, bool, bool) {
        (self.tap, self.running, self.external)
    }
    /// Whether the next half is due by `now`, as `half_at` says; asked at each
    /// cycle.
    #[inline]
    pub(super) fn oracle_due(&self, now: Time, clocks: &Clocks) -> bool {
        let elapsed = || clocks.ticks(now, self.tap).saturating_sub(self.consumed);
        self.counting() && elapsed() >= self.remaining.into()
    }
    /// The ticks left from `now` to the next half, which is not due yet. What
    /// was given is given back, also where it is no number of ticks.
    pub(super) fn oracle_remaining(&self, now: Time, clocks: &Clocks) -> Option<u16> {
        let elapsed = match self.counting() {
            true => clocks.ticks(now, self.tap).checked_sub(self.consumed)?,
            false => 0,
        };
        match u16::try_from(elapsed).ok()? {
            0 => Some(self.remaining),
            elapsed => self.remaining.checked_sub(elapsed).filter(|left| *left > 0),
        }
    }
    /// A counter at `half`, at its edge or not, with so many ticks to the next.
    pub(super) fn oracle_at(
        (half, high, edge): (u64, bool, bool),
        (tap, running, external): (Tap, bool, bool),
        remaining: u16,
        now: Time,
        clocks: &Clocks,
    ) -> Self {
        Self {
            tap,
            consumed: clocks.ticks(now, tap),
            remaining,
            half,
            high,
            // Time zero is the last edge of a fresh counter.
            last: if edge { now } else { Time::ZERO },
            running,
            external,
            next: NextHalf::default(),
            stale: false,
        }
    }
}
