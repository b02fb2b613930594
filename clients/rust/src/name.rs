//! Names, and the numbers that calls have for kinds of rights and for dispositions.

use std::fmt;

/// A name of a space, as a descriptor is a number of a process. The value owns no right.
#[derive(Clone, Copy, Default, PartialEq, Eq, PartialOrd, Ord, Hash)]
pub struct Name(pub u32);

impl Name {
    /// `MACH_PORT_NULL`: no port.
    pub const NULL: Name = Name(0);
    /// `MACH_PORT_DEAD`: a right whose port died on its way.
    pub const DEAD: Name = Name(0xffff_ffff);

    /// Returns true if it is neither of the two.
    pub fn is_valid(self) -> bool {
        self != Name::NULL && self != Name::DEAD
    }
}

impl fmt::Display for Name {
    fn fmt(&self, f: &mut fmt::Formatter<'_>) -> fmt::Result {
        write!(f, "{:#x}", self.0)
    }
}

impl fmt::Debug for Name {
    fn fmt(&self, f: &mut fmt::Formatter<'_>) -> fmt::Result {
        write!(f, "Name({:#x})", self.0)
    }
}

/// The kinds of what a name can hold.
#[derive(Clone, Copy, Debug, PartialEq, Eq, Hash)]
pub enum Kind {
    /// A send right.
    Send = 0,
    /// A receive right.
    Receive = 1,
    /// A send-once right.
    SendOnce = 2,
    /// A set of ports.
    PortSet = 3,
    /// A right whose port has died.
    DeadName = 4,
}

/// How a right is taken from its name for a message or a call.
#[derive(Clone, Copy, Debug, PartialEq, Eq, Hash)]
pub enum Disposition {
    /// The receive right leaves its name.
    MoveReceive = 16,
    /// One reference of a send right leaves its name.
    MoveSend = 17,
    /// The send-once right leaves its name.
    MoveSendOnce = 18,
    /// A send right is copied.
    CopySend = 19,
    /// A send right is made of a receive right.
    MakeSend = 20,
    /// A send-once right is made of a receive right.
    MakeSendOnce = 21,
}

/// Which rights a name holds, and whether it has a dead-name request.
#[derive(Clone, Copy, Debug, PartialEq, Eq, Hash)]
pub struct Type(pub u32);

impl Type {
    /// Returns true if the name holds such a right.
    pub fn holds(self, kind: Kind) -> bool {
        self.0 & 1 << (16 + kind as u32) != 0
    }

    /// Returns true if a notice is due when the name's port dies.
    pub fn has_dead_name_request(self) -> bool {
        self.0 & 0x8000_0000 != 0
    }
}

/// The state of a receive right's port.
#[derive(Clone, Copy, Debug, PartialEq, Eq)]
#[non_exhaustive]
pub struct PortStatus {
    /// The set that the port is in, or [`Name::NULL`].
    pub set: Name,
    /// The number that its next message gets.
    pub seqno: u32,
    /// The send rights that were made of it.
    pub make_send_count: u32,
    /// The messages that its queue takes.
    pub queue_limit: u32,
    /// The messages in its queue.
    pub messages: u32,
    /// The send-once rights that exist.
    pub send_once_rights: u32,
    /// True if any send right exists.
    pub has_senders: bool,
    /// True if a notice is due when the receive right is destroyed.
    pub has_port_destroyed_request: bool,
    /// True if a notice is due when no send right is left.
    pub has_no_senders_request: bool,
}

/// What a request for a notice is about; the numbers are the ids of the notices.
#[derive(Clone, Copy, Debug, PartialEq, Eq, Hash)]
pub enum Request {
    /// The receive right is to arrive at another port in place of being destroyed.
    PortDestroyed = 69,
    /// No send right is left.
    NoSenders = 70,
    /// The port of the name died.
    DeadName = 72,
}
