//! Terminals that own their records.

use crate::{lent, Error};
use std::fmt;

/// Registers of a terminal, one for each bit of the counter.
const REGISTERS: usize = 21;

/// Size of a terminal's record in bytes.
pub const RECORD_SIZE: usize = 187;

/// Size of a double-length terminal's record in bytes.
pub const DOUBLE_RECORD_SIZE: usize = 355;

/// A serial number: 10 bytes, whose last 21 bits are the counter.
pub type SerialNumber = [u8; 10];

/// A key that a terminal gave out: 8 bytes of a [`Terminal`], 16 of a [`DoubleTerminal`].
#[derive(Clone, Copy, PartialEq, Eq)]
pub struct NextKey<const SIZE: usize = 8> {
    /// The key.
    pub key: [u8; SIZE],
    /// The serial number with the counter of the key in it. For it [`host_key`](crate::host_key) gives the same key, if the
    /// terminal was loaded with the [`initial_key`](crate::initial_key) of the same derivation key; of a double-length
    /// terminal [`double_host_key`](crate::double_host_key) and [`double_initial_key`](crate::double_initial_key).
    pub serial_number: SerialNumber,
}

impl<const SIZE: usize> fmt::Debug for NextKey<SIZE> {
    /// Without the key.
    fn fmt(&self, f: &mut fmt::Formatter) -> fmt::Result {
        f.debug_struct("NextKey")
            .field("serial_number", &self.serial_number)
            .finish_non_exhaustive()
    }
}

/// A kind of terminal: its type, the sizes of a key and of a record, the library's entries on its record, and an example of
/// each function that calls them.
macro_rules! terminal {
    (
        $(#[$about:meta])*
        $name:ident: key $key_size:literal, record $record_size:ident, $load_entry:path, $next_key_entry:path;
        $(#[$load_example:meta])* load;
        $(#[$from_record_example:meta])* from_record;
        $(#[$next_key_example:meta])* next_key;
    ) => {
        $(#[$about])*
        ///
        /// There is no way to copy one but through its record, since an older record handed in again gives old keys again.
        #[derive(PartialEq, Eq)]
        pub struct $name {
            record: [u8; $record_size],
        }

        impl $name {
            // Where the parts of a record stand that follow the registers and the filled mask.
            const SERIAL_NUMBER: usize = $key_size * REGISTERS + 4;
            const COUNTER: usize = Self::SERIAL_NUMBER + 10;
            const EXHAUSTED: usize = Self::COUNTER + 4;

            #[doc = concat!("Loads a terminal with an initial key of ", $key_size, " bytes and a serial number of 10,")]
            /// whose counter bits are cleared. Counter 1 is next. Refusals: 6.
            ///
            $(#[$load_example])*
            pub fn load(initial_key: &[u8], serial_number: &[u8]) -> Result<Self, Error> {
                let mut record = [0; $record_size];
                $load_entry(initial_key, serial_number, &mut record)?;
                Ok(Self { record })
            }

            /// The terminal of a record that was kept. Refusals: 6, 11.
            ///
            $(#[$from_record_example])*
            pub fn from_record(record: &[u8]) -> Result<Self, Error> {
                let mut record: [u8; $record_size] = record.try_into().map_err(|_| Error::Size)?;
                // A call without room for a key judges the record and is refused, which changes nothing.
                match $next_key_entry(&mut record, &mut [], &mut []) {
                    Err(Error::ShortBuffer | Error::Exhausted) => Ok(Self { record }),
                    Err(error) => Err(error),
                    Ok(_) => unreachable!("there was no room for a key"),
                }
            }

            /// The next key. Refusals: 12, and the terminal stays as it is.
            ///
            $(#[$next_key_example])*
            pub fn next_key(&mut self) -> Result<NextKey<$key_size>, Error> {
                let mut next = NextKey {
                    key: [0; $key_size],
                    serial_number: [0; 10],
                };
                $next_key_entry(&mut self.record, &mut next.key, &mut next.serial_number)?;
                Ok(next)
            }

            /// The record, to be kept. It holds keys.
            pub fn record(&self) -> &[u8; $record_size] {
                &self.record
            }

            /// The counter to be given out next; 0 if exhausted.
            pub fn counter(&self) -> u32 {
                self.record[Self::COUNTER..Self::EXHAUSTED]
                    .iter()
                    .fold(0, |value, byte| value << 8 | u32::from(*byte))
            }

            /// Whether every key was given out.
            pub fn is_exhausted(&self) -> bool {
                self.record[Self::EXHAUSTED] == 1
            }

            /// The serial number, its counter bits zero.
            pub fn serial_number(&self) -> SerialNumber {
                let mut serial_number = [0; 10];
                serial_number.copy_from_slice(&self.record[Self::SERIAL_NUMBER..Self::COUNTER]);
                serial_number
            }
        }

        impl fmt::Debug for $name {
            /// Without the registers.
            fn fmt(&self, f: &mut fmt::Formatter) -> fmt::Result {
                f.debug_struct(stringify!($name))
                    .field("serial_number", &self.serial_number())
                    .field("counter", &self.counter())
                    .field("exhausted", &self.is_exhausted())
                    .finish_non_exhaustive()
            }
        }
    };
}

terminal! {
    /// A terminal: its record of 187 bytes, which always hangs together.
    Terminal: key 8, record RECORD_SIZE, lent::terminal_load, lent::terminal_next_key;

    /// ```
    /// use chizuregwo::Terminal;
    /// let initial_key = [0x21, 0xEE, 0x7C, 0x08, 0xDB, 0xE8, 0x20, 0xAB];
    /// let terminal = Terminal::load(&initial_key, &[0; 10])?;
    /// assert_eq!(terminal.counter(), 1);
    /// # Ok::<(), chizuregwo::Error>(())
    /// ```
    load;

    /// ```
    /// use chizuregwo::{Error, Terminal};
    /// let loaded = Terminal::load(&[1; 8], &[0; 10])?;
    /// assert_eq!(Terminal::from_record(loaded.record())?, loaded);
    /// assert_eq!(Terminal::from_record(&[0; 187]), Err(Error::BadRecord));
    /// # Ok::<(), Error>(())
    /// ```
    from_record;

    /// ```
    /// use chizuregwo::{host_key, initial_key, Terminal};
    /// let derivation_key = *b"0123456789abcdef";
    /// let serial_number = [0xFF, 0xFF, 0x98, 0x76, 0x54, 0x32, 0x10, 0xE0, 0, 0];
    /// let mut terminal = Terminal::load(&initial_key(&derivation_key, &serial_number)?, &serial_number)?;
    /// let next = terminal.next_key()?;
    /// assert_eq!(next.serial_number[9], 1);
    /// assert_eq!(next.key, host_key(&derivation_key, &next.serial_number)?);
    /// # Ok::<(), chizuregwo::Error>(())
    /// ```
    next_key;
}

terminal! {
    /// A double-length terminal: its record of 355 bytes, which always hangs together. Its keys have 16 bytes; counter,
    /// registers and exhaustion are those of a [`Terminal`].
    DoubleTerminal: key 16, record DOUBLE_RECORD_SIZE, lent::double_terminal_load, lent::double_terminal_next_key;

    /// The halves of the initial key are not compared.
    ///
    /// ```
    /// use chizuregwo::{key_entry, DoubleTerminal};
    /// let initial_key = key_entry(b"6AC292FAA1315B4D858AB3A3D7D5933A", 16)?;
    /// let serial_number = [0xFF, 0xFF, 0x98, 0x76, 0x54, 0x32, 0x10, 0xE0, 0, 0];
    /// let terminal = DoubleTerminal::load(&initial_key, &serial_number)?;
    /// assert_eq!(terminal.counter(), 1);
    /// // Register 0 holds the register key of counter 1, left half first.
    /// let register_key = key_entry(b"042666B49184CFA368DE9628D0397BC9", 16)?;
    /// assert_eq!(terminal.record()[..16], register_key);
    /// # Ok::<(), chizuregwo::Error>(())
    /// ```
    load;

    /// ```
    /// use chizuregwo::{DoubleTerminal, Error, Terminal};
    /// let loaded = DoubleTerminal::load(&[1; 16], &[0; 10])?;
    /// assert_eq!(DoubleTerminal::from_record(loaded.record())?, loaded);
    /// assert_eq!(DoubleTerminal::from_record(&[0; 355]), Err(Error::BadRecord));
    /// assert_eq!(Terminal::from_record(loaded.record()), Err(Error::Size));
    /// # Ok::<(), Error>(())
    /// ```
    from_record;

    /// ```
    /// use chizuregwo::{double_host_key, double_initial_key, key_entry, DoubleTerminal};
    /// let derivation_key = key_entry(b"0123456789ABCDEFFEDCBA9876543210", 16)?;
    /// let serial_number = [0xFF, 0xFF, 0x98, 0x76, 0x54, 0x32, 0x10, 0xE0, 0, 0];
    /// let initial_key = double_initial_key(&derivation_key, &serial_number)?;
    /// let mut terminal = DoubleTerminal::load(&initial_key, &serial_number)?;
    /// let next = terminal.next_key()?;
    /// assert_eq!(next.key.to_vec(), key_entry(b"042666B49184CF5C68DE9628D0397B36", 16)?);
    /// assert_eq!(next.serial_number[9], 1);
    /// assert_eq!(next.key, double_host_key(&derivation_key, &next.serial_number)?);
    /// # Ok::<(), chizuregwo::Error>(())
    /// ```
    next_key;
}
