//! Why a message is refused, so that people can read it.

use crate::answers::Fault;
use crate::{call, raw};
use core::fmt;

/// Why the message at the front of the bytes is refused at the agreed version; nothing for one that is accepted.
///
/// ```
/// let reason = sootlark::explain(b"not a message", 1004).expect("a reason");
/// assert_eq!((reason.number(), reason.field()), (1, Some("header")));
/// assert_eq!((reason.needed(), reason.had()), (Some(32), Some(13)));
/// assert_eq!(reason.to_string(), "the header needs 32 bytes, and 13 are there");
/// ```
pub fn explain(bytes: &[u8], version: u64) -> Option<Reason> {
    let (number, about) = About::of(bytes, version);
    (number != 0).then(|| Reason { fault: Fault::from_number(number), about })
}

/// What is known of a fault beside its number. Nothing here borrows or is allocated.
#[derive(Clone, Copy, PartialEq, Eq, Hash)]
pub(crate) struct About {
    name: [u8; raw::FIELD_NAME],
    /// How many bytes of the name there are: at most 64.
    name_size: u8,
    /// The header's sum of those that apply: at most 31.
    parts: u8,
    element: u64,
    /// The bytes needed, or the value, or the bytes left over: only one of them applies.
    first: u64,
    had: u64,
}

impl About {
    /// Nothing is known.
    pub(crate) const NOTHING: About =
        About { name: [0; raw::FIELD_NAME], name_size: 0, parts: 0, element: 0, first: 0, had: 0 };

    /// The reading's number, and what the library says about the fault.
    pub(crate) fn of(bytes: &[u8], version: u64) -> (u64, About) {
        let mut name = [0; raw::FIELD_NAME];
        let (number, size, parts, element, needed, had, value, left) = call::explain(bytes, version, &mut name);
        let first = match parts & (raw::HAS_ROOM | raw::HAS_VALUE | raw::HAS_LEFT) {
            raw::HAS_ROOM => needed,
            raw::HAS_VALUE => value,
            _ => left,
        };
        let (name_size, parts) = (size.min(name.len()) as u8, parts as u8);
        (number, About { name, name_size, parts, element, first, had })
    }

    fn has(&self, part: u64) -> bool {
        u64::from(self.parts) & part != 0
    }
}

/// Why a message is refused: what is wrong with the first field that is at fault. It displays as a sentence.
#[derive(Clone, Copy, PartialEq, Eq, Hash)]
pub struct Reason {
    pub(crate) fault: Fault,
    pub(crate) about: About,
}

impl Reason {
    /// What is wrong.
    pub const fn fault(&self) -> Fault {
        self.fault
    }

    /// The reading's number.
    pub const fn number(&self) -> u64 {
        self.fault.number()
    }

    /// The field, by its role name in document 003; `header` or `payload` of a message that is not whole. 40 and 46 have none.
    /// Of a string whose data runs past it is the data, while the [place](crate::Error::place) is that of its size.
    pub fn field(&self) -> Option<&str> {
        let name = self.about.name.get(..self.about.name_size.into())?;
        core::str::from_utf8(name).ok().filter(|_| self.about.has(raw::HAS_FIELD))
    }

    /// Which element of its list the field belongs to, from 0.
    pub fn element(&self) -> Option<u64> {
        self.about.has(raw::HAS_ELEMENT).then_some(self.about.element)
    }

    /// How many bytes the field needs: 1 and 44.
    pub fn needed(&self) -> Option<u64> {
        self.about.has(raw::HAS_ROOM).then_some(self.about.first)
    }

    /// How many bytes are there from the field's first byte on: 1 and 44.
    pub fn had(&self) -> Option<u64> {
        self.about.has(raw::HAS_ROOM).then_some(self.about.had)
    }

    /// The value that is at fault: 41, 42, 43 and 45; of 40 the agreed version.
    pub fn value(&self) -> Option<u64> {
        self.about.has(raw::HAS_VALUE).then_some(self.about.first)
    }

    /// How many bytes stand behind the last field: 46.
    pub fn left(&self) -> Option<u64> {
        self.about.has(raw::HAS_LEFT).then_some(self.about.first)
    }

    /// The field as the sentence's subject, behind its element.
    fn subject(&self, to: &mut fmt::Formatter) -> fmt::Result {
        if let Some(element) = self.element() {
            write!(to, "in element {element}, ")?;
        }
        match self.field() {
            Some(field @ ("header" | "payload")) => write!(to, "the {field}"),
            Some(field) => to.write_str(field),
            None => to.write_str("the agreed version"),
        }
    }

    /// What a value is not.
    fn judged(&self) -> &'static str {
        match self.fault {
            Fault::NoSuchVersion => "which is none of 1000 to 1004",
            Fault::UnknownType => "which is no known type of message",
            Fault::NotInVersion => "a type that the agreed version does not have",
            Fault::TooLarge => "which is above the most, 65504",
            _ => "which is not allowed",
        }
    }
}

/// The reason as a sentence, such as `domain.name.data needs 20 bytes, and 3 are there`.
impl fmt::Display for Reason {
    fn fmt(&self, to: &mut fmt::Formatter) -> fmt::Result {
        if let (Some(needed), Some(had)) = (self.needed(), self.had()) {
            self.subject(to)?;
            write!(to, " needs {}, and {had} {} there", Bytes(needed), are(had))
        } else if let Some(value) = self.value() {
            self.subject(to)?;
            write!(to, " is {value}, {}", self.judged())
        } else if let Some(left) = self.left() {
            write!(to, "{} {} left over behind the last field", Bytes(left), are(left))
        } else {
            self.fault.fmt(to)
        }
    }
}

/// Shows what applies.
impl fmt::Debug for Reason {
    fn fmt(&self, to: &mut fmt::Formatter) -> fmt::Result {
        let mut shown = to.debug_struct("Reason");
        shown.field("fault", &self.fault).field("field", &self.field()).field("element", &self.element());
        shown.field("needed", &self.needed()).field("had", &self.had());
        shown.field("value", &self.value()).field("left", &self.left()).finish()
    }
}

/// A number of bytes, in words.
struct Bytes(u64);

impl fmt::Display for Bytes {
    fn fmt(&self, to: &mut fmt::Formatter) -> fmt::Result {
        write!(to, "{} byte{}", self.0, if self.0 == 1 { "" } else { "s" })
    }
}

fn are(count: u64) -> &'static str {
    if count == 1 {
        "is"
    } else {
        "are"
    }
}
