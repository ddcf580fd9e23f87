#![no_std]
//! Stand-in for `embedded-storage`: the flash traits.

/// NOR flash.
pub mod nor_flash {
    /// Kinds of flash errors.
    #[derive(Debug, Clone, Copy, PartialEq, Eq)]
    pub enum NorFlashErrorKind {
        /// Not at a boundary the flash needs.
        NotAligned,
        /// Past the end.
        OutOfBounds,
        /// Any other.
        Other,
    }

    /// An error of a flash.
    pub trait NorFlashError: core::fmt::Debug {
        /// Its kind.
        fn kind(&self) -> NorFlashErrorKind;
    }

    /// The error a flash's calls share.
    pub trait ErrorType {
        /// The error.
        type Error: NorFlashError;
    }

    /// Flash that can be read.
    pub trait ReadNorFlash: ErrorType {
        /// Bytes of the smallest read.
        const READ_SIZE: usize;

        /// Reads `bytes.len()` bytes from `offset`.
        fn read(&mut self, offset: u32, bytes: &mut [u8]) -> Result<(), Self::Error>;

        /// Length of the region.
        fn capacity(&self) -> usize;
    }

    /// Flash that can be erased and written.
    pub trait NorFlash: ReadNorFlash {
        /// Bytes of the smallest write.
        const WRITE_SIZE: usize;
        /// Bytes of the smallest erase.
        const ERASE_SIZE: usize;

        /// Erases `from` up to `to`, `to` not included.
        fn erase(&mut self, from: u32, to: u32) -> Result<(), Self::Error>;

        /// Writes `bytes` at `offset`.
        fn write(&mut self, offset: u32, bytes: &[u8]) -> Result<(), Self::Error>;
    }
}
