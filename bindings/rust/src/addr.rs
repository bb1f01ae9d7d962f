//! Bus addresses (ironsight's addr.rs). The library takes and gives them as their bytes.
use std::fmt;

use crate::error::{Result, WireError};

/// An address on the radar's internal bus.
#[derive(Debug, Clone, Copy, PartialEq, Eq, Hash)]
#[repr(u8)]
pub enum BusAddr {
    /// The client's application.
    App = 0x10,
    /// The camera's processor.
    Pi = 0x12,
    /// The microcontroller: radar input and output, battery.
    Avr = 0x30,
    /// The signal processor: the radar's core.
    Dsp = 0x40,
}

impl BusAddr {
    /// The address of a byte: 10, 12, 30 or 40 hex.
    ///
    /// # Errors
    ///
    /// [`WireError::UnknownBusAddr`] for any other byte.
    pub fn from_byte(b: u8) -> Result<Self> {
        [Self::App, Self::Pi, Self::Avr, Self::Dsp]
            .into_iter()
            .find(|addr| addr.as_byte() == b)
            .ok_or(WireError::UnknownBusAddr { addr: b })
    }

    /// The byte of the address.
    pub fn as_byte(self) -> u8 {
        self as u8
    }
}

impl fmt::Display for BusAddr {
    fn fmt(&self, f: &mut fmt::Formatter<'_>) -> fmt::Result {
        f.write_str(match self {
            Self::App => "APP",
            Self::Pi => "PI",
            Self::Avr => "AVR",
            Self::Dsp => "DSP",
        })
    }
}
