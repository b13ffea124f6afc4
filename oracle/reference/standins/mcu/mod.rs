//! Stand-in for the module tree above the port.
pub mod bus;
pub mod clocks;
pub mod sci;
