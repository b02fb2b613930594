//! Messages that were received.

use std::time::Duration;

use crate::items::{Item, Items};
use crate::message::HEADER;
use crate::rights::{Right, SendOnceRight, SendRight};
use crate::{wire, Message, Name, SendError, Task};

/// A message that was received. Rights that aren't taken out of it are given back when it is dropped.
#[derive(Debug)]
pub struct Received {
    bytes: Vec<u8>,
    reply: Option<Reply>,
    rights: Vec<Right>,
}

impl Received {
    /// A message of at least a header.
    pub(crate) fn new(task: &Task, bytes: Vec<u8>) -> Received {
        let reply = Right::received(task, (wire::word(&bytes, 0) & 0xff) as u16, Name(wire::word(&bytes, 8)));
        let reply = match reply {
            Right::Send(right) => Some(Reply::Send(right)),
            Right::SendOnce(right) => Some(Reply::SendOnce(right)),
            Right::Null | Right::Dead | Right::Receive(_) => None,
        };
        let is_complex = wire::word(&bytes, 0) & 0x8000_0000 != 0;
        let items = Items::new(if is_complex { &bytes[HEADER..] } else { &[] });
        let mut rights = Vec::new();
        for item in items.flatten() {
            if let Item::Rights { kind, .. } = item {
                rights.extend(item.names().map(|name| Right::received(task, kind, name)));
            }
        }
        Received { bytes, reply, rights }
    }

    /// Returns the id that the sender chose.
    pub fn id(&self) -> i32 {
        wire::word(&self.bytes, 20) as i32
    }

    /// Returns the sequence number of the message at its port.
    pub fn seqno(&self) -> u32 {
        wire::word(&self.bytes, 16)
    }

    /// Returns the port that the message came to.
    pub fn port(&self) -> Name {
        Name(wire::word(&self.bytes, 12))
    }

    /// Returns the bytes after the header.
    pub fn body(&self) -> &[u8] {
        &self.bytes[HEADER..]
    }

    /// Returns the items of the body. If the sender gave the body as bytes, they needn't be valid items.
    pub fn items(&self) -> Items<'_> {
        Items::new(self.body())
    }

    /// Makes a reply without a body. Its id is the request's plus 100, as the Mach Interface Generator has it.
    pub fn answer(&self) -> Message<'static> {
        Message::new(self.id().wrapping_add(100))
    }

    /// Takes the right to reply by.
    pub fn take_reply(&mut self) -> Option<Reply> {
        self.reply.take()
    }

    /// Takes all rights of the body, in their order.
    pub fn take_rights(&mut self) -> Vec<Right> {
        std::mem::take(&mut self.rights)
    }

    /// Returns what the message says, if it has the form of a notice. Anyone who can send to the port can send such a
    /// message, so give a port for notices to nobody else.
    pub fn notice(&self) -> Option<Notice> {
        let word = self.items().next()?.ok().and_then(|item| item.data()).and_then(|data| data.words().next());
        match (self.id(), word) {
            (65, Some(name)) => Some(Notice::PortDeleted(Name(name))),
            (70, Some(count)) => Some(Notice::NoSenders(count)),
            (72, Some(name)) => Some(Notice::DeadName(Name(name))),
            _ => None,
        }
    }

    /// Returns true if the message has the form of the notice that a send-once right was destroyed: nobody replies.
    pub fn is_send_once_notice(&self) -> bool {
        self.id() == 71 && self.body().is_empty()
    }
}

/// What a notice says of a name.
#[derive(Clone, Copy, Debug, PartialEq, Eq)]
#[non_exhaustive]
pub enum Notice {
    /// A name with a dead-name request isn't in use any more.
    PortDeleted(Name),
    /// The last send right is gone. So many had been made.
    NoSenders(u32),
    /// The port of the name died. The notice adds one reference to the dead name.
    DeadName(Name),
}

/// A right to reply by.
#[derive(Debug)]
pub enum Reply {
    /// As most clients give one.
    SendOnce(SendOnceRight),
    /// A send right.
    Send(SendRight),
}

impl Reply {
    /// Sends a reply. It doesn't wait for room in the queue, so a client that takes no replies doesn't block the
    /// server.
    pub fn send(self, message: Message<'_>) -> Result<(), SendError<'_>> {
        match self {
            Reply::SendOnce(right) => right.send(message),
            Reply::Send(right) => right.send(message, Some(Duration::ZERO)),
        }
    }
}
