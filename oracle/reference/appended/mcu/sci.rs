
// ---- Below: appended by the oracle's build script, not the reference. ----

impl Sci {
    /// Told before the reference's own: SSR and the word's error.
    fn complete_receive(&mut self, rx: Rx) {
        crate::completed::tell(crate::Completed {
            ssr: self.ssr,
            error: rx.error,
        });
        self.reference_complete_receive(rx);
    }
}

/// Access for the oracle. Nothing here takes part in what the port does,
/// save for the three experiments at the end.
mod oracle {
    use super::*;
    use crate::snapshot;

    fn narrow(half: u64) -> Result<u32, &'static str> {
        u32::try_from(half).map_err(|_| "a half does not fit 32 bits")
    }
    fn narrow_due(due: Option<u64>) -> Result<Option<u32>, &'static str> {
        due.map(narrow).transpose()
    }

    fn format_out(f: Format) -> Result<snapshot::Format, &'static str> {
        Ok(snapshot::Format {
            synchronous: f.synchronous,
            data: f.data,
            parity: f.parity,
            odd: f.odd,
            stops: f.stops,
            half_bit: narrow(f.half_bit)?,
        })
    }
    fn format_in(f: snapshot::Format) -> Format {
        Format {
            synchronous: f.synchronous,
            data: f.data,
            parity: f.parity,
            odd: f.odd,
            stops: f.stops,
            half_bit: f.half_bit.into(),
        }
    }
    fn character_out(c: Character) -> Result<snapshot::Character, &'static str> {
        Ok(snapshot::Character {
            format: format_out(c.format)?,
            word: c.word,
        })
    }
    fn character_in(c: snapshot::Character) -> Character {
        Character {
            format: format_in(c.format),
            word: c.word,
        }
    }
    fn tx_out(tx: Tx) -> Result<snapshot::Tx, &'static str> {
        Ok(match tx {
            Tx::Blocked { character } => snapshot::Tx::Blocked {
                character: character_out(character)?,
            },
            Tx::Mark { next } => snapshot::Tx::Mark {
                next: narrow(next)?,
            },
            Tx::Start { character, next } => snapshot::Tx::Start {
                character: character_out(character)?,
                next: narrow(next)?,
            },
            Tx::Data {
                character,
                cell,
                next,
            } => snapshot::Tx::Data {
                character: character_out(character)?,
                cell,
                next: narrow_due(next)?,
            },
            Tx::Tail { loaded, next } => snapshot::Tx::Tail {
                loaded: loaded.map(character_out).transpose()?,
                next: narrow_due(next)?,
            },
        })
    }
    fn tx_in(tx: snapshot::Tx) -> Tx {
        match tx {
            snapshot::Tx::Blocked { character } => Tx::Blocked {
                character: character_in(character),
            },
            snapshot::Tx::Mark { next } => Tx::Mark { next: next.into() },
            snapshot::Tx::Start { character, next } => Tx::Start {
                character: character_in(character),
                next: next.into(),
            },
            snapshot::Tx::Data {
                character,
                cell,
                next,
            } => Tx::Data {
                character: character_in(character),
                cell,
                next: next.map(u64::from),
            },
            snapshot::Tx::Tail { loaded, next } => Tx::Tail {
                loaded: loaded.map(character_in),
                next: next.map(u64::from),
            },
        }
    }
    fn rx_out(rx: Rx) -> Result<snapshot::Rx, &'static str> {
        Ok(snapshot::Rx {
            format: format_out(rx.format)?,
            value: rx.value,
            position: rx.position,
            parity: rx.parity,
            error: rx.error,
            next: narrow_due(rx.next)?,
        })
    }
    fn rx_in(rx: snapshot::Rx) -> Rx {
        Rx {
            format: format_in(rx.format),
            value: rx.value,
            position: rx.position,
            parity: rx.parity,
            error: rx.error,
            next: rx.next.map(u64::from),
        }
    }

    impl crate::AnySci for Sci {
        type Clocks = Clocks;

        fn peek(&self, a: u16) -> u8 {
            Sci::peek(self, a)
        }
        fn read(&mut self, a: u16) -> u8 {
            Sci::read(self, a)
        }
        fn write(&mut self, a: u16, v: u8, now: Time, c: &Clocks) -> Result<(), Error> {
            Sci::write(self, a, v, now, c)
        }
        fn set_power(
            &mut self,
            [module, main, sub, reset_mode]: [bool; 4],
            now: Time,
            c: &Clocks,
        ) -> Result<(), Error> {
            Sci::set_power(self, module, main, sub, reset_mode, now, c)
        }
        fn input_pins(
            &mut self,
            clock: Option<bool>,
            input: bool,
            now: Time,
            c: &Clocks,
        ) -> Result<bool, Error> {
            Sci::input_pins(self, clock, input, now, c)
        }
        fn sync(&mut self, now: Time, c: &Clocks) -> Result<(), Error> {
            Sci::sync(self, now, c)
        }
        fn advance(&mut self, now: Time, c: &Clocks) -> Result<(), Error> {
            Sci::advance(self, now, c)
        }
        fn deadline(&self, c: &Clocks) -> Result<Option<Time>, Error> {
            Sci::deadline(self, c)
        }
        fn interrupt(&self) -> bool {
            Sci::interrupt(self)
        }

        fn oracle_pins(&self) -> (Option<Drive>, Option<bool>, bool) {
            let pins = self.pins();
            (pins.clock, pins.transmit, pins.receive)
        }
        fn oracle_state(
            &self,
            now: Time,
            c: &Clocks,
            [system, watch]: [u64; 2],
        ) -> Result<snapshot::State, &'static str> {
            if self.baud.oracle_stale() {
                return Err("the present half's edge time is not settled");
            }
            if self.baud.oracle_selection() != (self.tap(), self.running(), self.external()) {
                return Err("the counter's clock choice is not that of the registers");
            }
            if self.infrared
                || self.pulse_start.is_some()
                || self.pulse_end.is_some()
                || self.receive_pulse.is_some()
            {
                return Err("an infrared pulse is on its way");
            }
            if self.optical.late || self.light.len != 0 || self.light.unseen {
                return Err("light or late output is in use");
            }
            Ok(snapshot::State {
                spcr: self.spcr,
                smr: self.smr,
                brr: self.brr,
                scr: self.scr,
                tdr: self.tdr,
                ssr: self.ssr,
                rdr: self.rdr,
                semr: self.semr,
                ircr: self.ircr,
                seen: self.seen,
                module: self.module,
                main: self.main,
                sub: self.sub,
                reset_mode: self.reset_mode,
                half: narrow(self.baud.half)?,
                high: self.baud.high,
                edge: self.baud.oracle_last() == now,
                holding: self.holding,
                tx: self.tx.map(tx_out).transpose()?,
                rx: self.rx.map(rx_out).transpose()?,
                uart: self.uart,
                bit_start: narrow(self.bit_start)?,
                input: self.input,
                input_clock: self.input_clock,
                sck: self.sck,
                sync_next: narrow_due(self.sync_next)?,
                transmitted: self.transmitted,
                received: self.received,
                remaining: (self.baud.oracle_remaining(now, c)).ok_or("a half is overdue")?,
                system,
                watch,
            })
        }
        fn oracle_from_state(s: &snapshot::State, now: Time, c: &Clocks) -> Self {
            let mut port = Self {
                spcr: s.spcr,
                smr: s.smr,
                brr: s.brr,
                scr: s.scr,
                tdr: s.tdr,
                ssr: s.ssr,
                rdr: s.rdr,
                semr: s.semr,
                ircr: s.ircr,
                seen: s.seen,
                module: s.module,
                main: s.main,
                sub: s.sub,
                reset_mode: s.reset_mode,
                holding: s.holding,
                tx: s.tx.map(tx_in),
                rx: s.rx.map(rx_in),
                uart: s.uart,
                bit_start: s.bit_start.into(),
                input: s.input,
                input_clock: s.input_clock,
                sck: s.sck,
                sync_next: s.sync_next.map(u64::from),
                transmitted: s.transmitted,
                received: s.received,
                ..Self::default()
            };
            port.baud = Baud::oracle_at(
                (s.half.into(), s.high, s.edge),
                (port.tap(), port.running(), port.external()),
                s.remaining,
                now,
                c,
            );
            port
        }
        fn oracle_half(&self) -> u64 {
            self.baud.half
        }
        fn oracle_counting(&self) -> bool {
            let (_, running, external) = self.baud.oracle_selection();
            running && !external
        }
        #[inline]
        fn oracle_due(&self, now: Time, c: &Clocks) -> bool {
            self.baud.oracle_due(now, c)
        }
        fn oracle_edge_after(&self, halves: u64, c: &Clocks) -> Result<Option<Time>, Error> {
            self.baud
                .deadline(self.baud.half + halves, c, self.reload())
        }
        fn oracle_drain(&mut self) -> usize {
            let mut changes = 0;
            self.drain_optical(|_, _| changes += 1);
            changes
        }
        fn oracle_glitch(&self) -> bool {
            self.mux_glitch.is_some()
        }
        fn oracle_end_glitch(&mut self) {
            self.mux_glitch = None;
        }
        fn oracle_validate(&self, now: Time) -> Result<(), Error> {
            self.validate(now)
        }
    }

    impl Sci {
        /// The word of a value, straight from the frame.
        pub fn oracle_word(smr: u8, semr: u8, value: u8) -> u16 {
            Format::new(smr, semr).word(value)
        }

        /// Experiment: the half at `now` without the extra pass in `sync`.
        /// The counter is moved first, so that `sync` finds it up to date.
        pub fn oracle_advance_without_extra_pass(
            &mut self,
            now: Time,
            c: &Clocks,
        ) -> Result<(), Error> {
            self.baud.step_to(self.baud.half + 1, self.reload());
            self.baud.time(c)?;
            self.advance(now, c)
        }
        /// Experiment: the half at `now` with the clocked edge done before
        /// the basic work, the mistake that document 01 warns of.
        pub fn oracle_advance_edge_first(&mut self, now: Time, c: &Clocks) -> Result<(), Error> {
            self.baud.step_to(self.baud.half + 1, self.reload());
            self.baud.time(c)?;
            let half = self.baud.half;
            if self.sync_next.take_if(|due| *due == half).is_some() {
                let level = !self.sck;
                self.sck = level;
                self.sync_edge(level, now)?;
            }
            self.process_basic(Some(now), c)
                .map(|()| self.refresh_sync_clock())
        }
        /// Experiment: the half at `now` with the receiver's step before the
        /// sender's. What it has done is not due again in the same half.
        pub fn oracle_advance_receiver_first(
            &mut self,
            now: Time,
            c: &Clocks,
        ) -> Result<(), Error> {
            self.baud.step_to(self.baud.half + 1, self.reload());
            self.baud.time(c)?;
            self.advance_rx();
            self.advance(now, c)
        }
    }
}
