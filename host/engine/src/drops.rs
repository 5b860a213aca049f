//! The numbers with which calls are dropped.

/// Why a call was dropped. The variants stand in the order in which they are
/// tried.
#[derive(Clone, Copy, Debug, PartialEq, Eq)]
#[repr(u8)]
pub enum Drop {
    /// The reply buffer has under 48 bytes.
    ReplyTooShort = 1,
    /// The store is too short or encodes no state.
    StoreUnsound = 2,
    /// The message doesn't have 48 bytes.
    MessageLength = 3,
    /// The device byte isn't 0x0A.
    Device = 4,
    /// The top three type bits aren't 0, 1, 0.
    NotACommand = 5,
    /// The correlation id is 0, which only notifications have.
    CorrelationZero = 6,
    /// Bytes 40 to 43 aren't the fixed ones.
    Trailer = 7,
    /// A report names an instance that isn't there.
    NoSuchInstance = 11,
    /// A report names an attribute that reports don't write here or an alarm
    /// that isn't declared; or power-on names no product.
    NotReportable = 12,
    /// A report's content has the wrong length or isn't legal.
    BadContent = 13,
}

impl Drop {
    /// The number that the entry returns.
    pub fn number(self) -> u8 {
        self as u8
    }
}
