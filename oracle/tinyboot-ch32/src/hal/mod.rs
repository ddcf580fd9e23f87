//! In place of the chip's registers.

pub mod flash;
