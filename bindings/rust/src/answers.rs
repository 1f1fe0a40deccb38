//! Numbers: the types of messages, and why something is refused. They are document 01's, but for 50, which is ours.

use crate::reason::{About, Reason};
use core::error;
use core::fmt;

/// An enum of numbers, each with its words, and a case for a number that there is not.
macro_rules! numbered {
    ($(#[$about:meta])* $name:ident { $($case:ident = $number:literal $words:literal,)* }) => {
        $(#[$about])*
        #[derive(Clone, Copy, Debug, PartialEq, Eq, Hash)]
        pub enum $name {
            $(#[doc = concat!($number, ": ", $words, ".")] $case,)*
            /// A number that there is not, or results that do not fit together: the library that was linked is not the
            /// one that these bindings are for.
            Unknown(u64),
        }

        impl $name {
            /// Its number.
            pub const fn number(self) -> u64 {
                match self {
                    $(Self::$case => $number,)*
                    Self::Unknown(number) => number,
                }
            }

            /// The case that has a number.
            pub const fn from_number(number: u64) -> Self {
                match number {
                    $($number => Self::$case,)*
                    _ => Self::Unknown(number),
                }
            }
        }

        impl fmt::Display for $name {
            fn fmt(&self, to: &mut fmt::Formatter) -> fmt::Result {
                match self {
                    $(Self::$case => to.write_str($words),)*
                    Self::Unknown(number) => write!(to, "unknown number {number}"),
                }
            }
        }
    };
}

numbered! {
    /// The types of messages.
    MessageKind {
        ServiceReply = 3103 "service reply",
        RollbackRequest = 5205 "rollback request",
        RollbackReply = 5206 "rollback reply",
        DequeueReply = 6201 "dequeue reply",
        ConnectRequest = 7200 "connect request",
        ConnectReply = 7201 "connect reply",
        DisconnectRequest = 7202 "disconnect request",
        DisconnectReply = 7203 "disconnect reply",
        DiscoveryRequest = 7300 "discovery request",
        TopologyUpdate = 7302 "topology update",
        DiscoveryReply = 7311 "discovery reply",
    }
}

numbered! {
    /// Why the message part refuses.
    Fault {
        NotWhole = 1 "the message is not whole",
        NoSuchVersion = 40 "there is no such version",
        UnknownType = 41 "the type is unknown",
        NotInVersion = 42 "the version does not have the type",
        TooLarge = 43 "the message is too large",
        RunsPast = 44 "a field runs past the end of the payload",
        NotAllowed = 45 "a value is not allowed",
        BytesAfter = 46 "there are bytes after the last field",
        OutputShort = 47 "the output is too short for the message",
        ListsDiffer = 48 "the columns of a list, or lengths and bytes, do not agree",
        NoElement = 49 "there is no such element",
        NoField = 50 "the message has no such field",
    }
}

numbered! {
    /// Why the link refuses a call or a record.
    Refusal {
        NotWhole = 1 "the record is not whole",
        StoreLength = 2 "the store has the wrong length",
        RowRules = 3 "the endpoint breaks the row rules",
        LinkDown = 4 "the endpoint is down",
        NotServed = 5 "the identifier is not served",
        OtherHalf = 6 "the identifier is the other end's to open",
        NotClosed = 7 "the identifier is not closed",
        WrongSession = 8 "the session is not the identifier's latest",
        NotOpen = 9 "the session is not open",
        Empty = 10 "there is nothing to request or to transmit",
        AboveRoom = 11 "the request is above the room that is left",
        AboveOutput = 12 "the data is above the credit that the other end granted",
        OutputShort = 13 "the output is too short for the record",
        SessionsSpent = 14 "all session numbers are spent",
        UnknownOpcode = 20 "a record has an unknown opcode",
        UnknownIdentifier = 21 "a record's identifier is not served",
        CountNotPositive = 22 "a record's count is not positive",
        OpenInOurHalf = 23 "an OPEN came for an identifier that is ours to open",
        OpenOnRowNotClosed = 24 "an OPEN came for an identifier that is not closed",
        OnClosedRow = 25 "a record came for a closed identifier",
        CloseackNotPending = 26 "a CLOSEACK came that nothing waits for",
        AboveInput = 27 "a TRANSMIT came that is above the credit that we granted",
        CreditOverflow = 28 "a REQUEST came that takes the credit above its limit",
        QueueOverflow = 29 "a TRANSMIT came that the queue has no room for",
        OpenSessionsSpent = 30 "an OPEN came when all session numbers are spent",
    }
}

impl Refusal {
    /// Whether the record that was answered so took the endpoint down.
    pub const fn takes_down(self) -> bool {
        matches!(self.number(), 20..=30)
    }

    /// Nothing for 0, else the refusal.
    pub(crate) fn check(number: u64) -> Result<(), Refusal> {
        match number {
            0 => Ok(()),
            _ => Err(Refusal::from_number(number)),
        }
    }
}

impl error::Error for Refusal {}

/// Why a message was not read or written, and where it is at fault. That of a message that was read has a reason as well,
/// and displays as its sentence.
#[derive(Clone, Copy, PartialEq, Eq, Hash)]
pub struct Error {
    /// What is wrong.
    pub fault: Fault,
    /// The offset in the payload that 44, 45 and 46 name when a message is read, else 0: of the first byte of the
    /// field at fault, or of the first byte after the last field. Of a string whose data does not end within the
    /// payload it is that of its size, eight bytes before the data, while the [reason](Error::reason) names the data.
    pub place: usize,
    about: About,
}

impl Error {
    /// The number: document 01's, or 50, which is ours.
    pub const fn number(self) -> u64 {
        self.fault.number()
    }

    /// Why the message that was read is refused: the field that is at fault, and what is wrong with it. Other calls than
    /// reading have none.
    pub fn reason(&self) -> Option<Reason> {
        (self.about != About::NOTHING).then_some(Reason { fault: self.fault, about: self.about })
    }

    /// A fault without a place.
    pub(crate) const fn of(fault: Fault) -> Error {
        Error { fault, place: 0, about: About::NOTHING }
    }

    /// Nothing for 0, else the error.
    pub(crate) fn check(number: u64, place: usize) -> Result<(), Error> {
        match number {
            0 => Ok(()),
            _ => Err(Error { place, ..Error::of(Fault::from_number(number)) }),
        }
    }

    /// The error of these bytes, which were refused, with its reason.
    pub(crate) fn explained(self, bytes: &[u8], version: u64) -> Error {
        let (number, about) = About::of(bytes, version);
        match number == self.number() {
            true => Error { about, ..self },
            false => self,
        }
    }
}

impl fmt::Display for Error {
    fn fmt(&self, to: &mut fmt::Formatter) -> fmt::Result {
        match self.reason() {
            Some(reason) => reason.fmt(to),
            None => self.fault.fmt(to),
        }
    }
}

impl fmt::Debug for Error {
    fn fmt(&self, to: &mut fmt::Formatter) -> fmt::Result {
        let mut shown = to.debug_struct("Error");
        shown.field("fault", &self.fault).field("place", &self.place).field("reason", &self.reason()).finish()
    }
}

impl error::Error for Error {}
