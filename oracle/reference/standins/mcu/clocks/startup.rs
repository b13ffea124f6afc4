//! Stand-in: oscillator start-up, which the port does not see.
