//! The items of a message's body: rights and data, each after a descriptor.

use std::fmt;
use std::str::{self, Utf8Error};

use crate::wire;
use crate::{Disposition, Name};

/// Types of data, as Mach's headers number them. 16 to 21 are rights; every other number is data.
pub mod kinds {
    /// `MACH_MSG_TYPE_INTEGER_32`.
    pub const INTEGER_32: u16 = 2;
    /// `MACH_MSG_TYPE_CHAR`.
    pub const CHAR: u16 = 8;
    /// `MACH_MSG_TYPE_BYTE`.
    pub const BYTE: u16 = 9;
    /// `MACH_MSG_TYPE_STRING`.
    pub const STRING: u16 = 12;
    /// `MACH_MSG_TYPE_PORT_NAME`: a name as data, without its rights.
    pub const PORT_NAME: u16 = 15;
}

const RIGHTS: std::ops::RangeInclusive<u16> = Disposition::MoveReceive as u16..=Disposition::MakeSendOnce as u16;
const INLINE: u32 = 1 << 28;
const LONG_FORM: u32 = 1 << 29;

/// An item of a body, borrowed from it.
#[derive(Clone, Copy, PartialEq, Eq)]
pub enum Item<'a> {
    /// Rights. As received, the type is 16 (receive), 17 (send) or 18 (send-once).
    Rights {
        /// The disposition, or the type that the rights arrived as.
        kind: u16,
        /// Four bytes for each name.
        names: &'a [u8],
    },
    /// Data.
    Data(Data<'a>),
}

/// An item of data.
#[derive(Clone, Copy, PartialEq, Eq)]
pub struct Data<'a> {
    /// What the elements are ([`kinds`]).
    pub kind: u16,
    /// The bits of an element.
    pub bits: u16,
    /// The elements.
    pub number: u32,
    /// The bytes of all elements.
    pub bytes: &'a [u8],
}

impl<'a> Item<'a> {
    /// Returns the names of an item of rights.
    pub fn names(&self) -> impl Iterator<Item = Name> + 'a {
        let names: &'a [u8] = match *self {
            Item::Rights { names, .. } => names,
            Item::Data(_) => &[],
        };
        names.chunks_exact(4).map(|chunk| Name(wire::word(chunk, 0)))
    }

    /// Returns the data, if the item isn't one of rights.
    pub fn data(&self) -> Option<Data<'a>> {
        match *self {
            Item::Rights { .. } => None,
            Item::Data(data) => Some(data),
        }
    }
}

impl<'a> Data<'a> {
    /// Returns the bytes as a text.
    pub fn text(&self) -> Result<&'a str, Utf8Error> {
        str::from_utf8(self.bytes)
    }

    /// Returns the bytes as numbers of 32 bits.
    pub fn words(&self) -> impl Iterator<Item = u32> + 'a {
        self.bytes.chunks_exact(4).map(|chunk| wire::word(chunk, 0))
    }
}

impl fmt::Debug for Item<'_> {
    fn fmt(&self, f: &mut fmt::Formatter<'_>) -> fmt::Result {
        match self {
            Item::Rights { kind, .. } => {
                f.debug_struct("Rights").field("kind", kind).field("names", &self.names().collect::<Vec<_>>()).finish()
            }
            Item::Data(data) => data.fmt(f),
        }
    }
}

impl fmt::Debug for Data<'_> {
    fn fmt(&self, f: &mut fmt::Formatter<'_>) -> fmt::Result {
        let Data { kind, bits, number, bytes } = self;
        let mut shown = f.debug_struct("Data");
        shown.field("kind", kind).field("bits", bits).field("number", number).field("bytes", bytes).finish()
    }
}

/// A body that isn't a sequence of items in line.
#[derive(Clone, Copy, Debug, PartialEq, Eq)]
pub struct Malformed;

impl fmt::Display for Malformed {
    fn fmt(&self, f: &mut fmt::Formatter<'_>) -> fmt::Result {
        f.write_str("the body isn't a sequence of items in line")
    }
}

impl std::error::Error for Malformed {}

/// Reads the items of a body.
///
/// ```
/// use machipc::{Items, Malformed};
///
/// // A short descriptor: type 9 (bytes), elements of 8 bits, 2 of them, in line; the data are padded to four bytes.
/// let body = [9, 8, 2, 0x10, b'h', b'i', 0, 0];
/// let item = Items::new(&body).next().unwrap()?;
/// assert_eq!(item.data().unwrap().text(), Ok("hi"));
/// assert_eq!(Items::new(&body[..6]).next(), Some(Err(Malformed)));
/// # Ok::<(), Malformed>(())
/// ```
#[derive(Clone, Debug)]
pub struct Items<'a> {
    rest: &'a [u8],
}

impl<'a> Items<'a> {
    /// Returns the items of these bytes.
    pub fn new(body: &'a [u8]) -> Items<'a> {
        Items { rest: body }
    }

    /// Takes so many bytes of what is left.
    fn take(&mut self, count: usize) -> Result<&'a [u8], Malformed> {
        if count > self.rest.len() {
            return Err(Malformed);
        }
        let (taken, rest) = self.rest.split_at(count);
        self.rest = rest;
        Ok(taken)
    }

    fn read(&mut self) -> Result<Item<'a>, Malformed> {
        let word = wire::word(self.take(4)?, 0);
        let (kind, bits, number) = if word & LONG_FORM == 0 {
            ((word & 0xff) as u16, (word >> 8 & 0xff) as u16, word >> 16 & 0xfff)
        } else {
            let long = self.take(8)?;
            (wire::word(long, 0) as u16, (wire::word(long, 0) >> 16) as u16, wire::word(long, 4))
        };
        let length = (u64::from(number) * u64::from(bits) + 7) / 8;
        let length = usize::try_from(length).map_err(|_| Malformed)?;
        if word & INLINE == 0 || (RIGHTS.contains(&kind) && bits != 32) {
            return Err(Malformed);
        }
        let bytes = self.take(length)?;
        self.take(padding(length))?;
        if RIGHTS.contains(&kind) {
            return Ok(Item::Rights { kind, names: bytes });
        }
        Ok(Item::Data(Data { kind, bits, number, bytes }))
    }
}

impl<'a> Iterator for Items<'a> {
    type Item = Result<Item<'a>, Malformed>;

    /// Returns the next item. Nothing follows an item that is malformed.
    fn next(&mut self) -> Option<Self::Item> {
        if self.rest.is_empty() {
            return None;
        }
        let item = self.read();
        if item.is_err() {
            self.rest = &[];
        }
        Some(item)
    }
}

fn padding(length: usize) -> usize {
    length.wrapping_neg() % 4
}

/// Writes an item. The bytes have to be those of so many elements.
pub(crate) fn push_item(body: &mut Vec<u8>, kind: u16, bits: u16, number: u32, bytes: &[u8]) {
    if number < 4096 && kind < 256 && bits < 256 {
        let word = u32::from(kind) | u32::from(bits) << 8 | number << 16 | INLINE;
        body.extend_from_slice(&word.to_le_bytes());
    } else {
        body.extend_from_slice(&(INLINE | LONG_FORM).to_le_bytes());
        body.extend_from_slice(&kind.to_le_bytes());
        body.extend_from_slice(&bits.to_le_bytes());
        body.extend_from_slice(&number.to_le_bytes());
    }
    body.extend_from_slice(bytes);
    body.resize(body.len() + padding(bytes.len()), 0);
}
