//! The port as a side: its lent memory, and the exported functions of `kcp_c` as they come.

pub mod departures;
pub mod exports;
pub mod joined;
pub mod memory;
pub mod out;
pub mod watch;

#[cfg(test)]
mod tests;
