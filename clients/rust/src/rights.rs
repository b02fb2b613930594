//! Rights that a program holds, each with one owner.

use std::ops::Deref;
use std::time::Duration;

use crate::messaging::ReceiveOptions;
use crate::{Disposition, Error, Kind, Message, Name, PortStatus, Received, Request, Result, SendError, Task, Type};

/// A name of a task's space, with the calls on it.
///
/// It owns nothing; a right derefs to it. [`Task::port`] makes one of any name.
#[derive(Clone, Debug)]
pub struct Port {
    task: Task,
    name: Name,
}

impl Port {
    pub(crate) fn new(task: Task, name: Name) -> Port {
        Port { task, name }
    }

    /// Returns the name.
    pub fn name(&self) -> Name {
        self.name
    }

    /// Returns the task in whose space the name is.
    pub fn task(&self) -> &Task {
        &self.task
    }

    /// Returns the kinds of rights that the name holds.
    pub fn type_of(&self) -> Result<Type> {
        self.task.type_of(self.name)
    }

    /// Sends a message by the name's send right, which stays, and waits for room in the queue: forever, if the timeout is
    /// `None`.
    pub fn send<'a>(&self, message: Message<'a>, timeout: Option<Duration>) -> std::result::Result<(), SendError<'a>> {
        self.task.send(self.name, Disposition::CopySend, message, timeout)
    }

    /// Sends a message by the name's send right, and then receives one from a port, as a client does that asks a server.
    /// Each half has the timeout.
    pub fn send_receive<'a>(
        &self,
        message: Message<'a>,
        from: &ReceiveRight,
        timeout: Option<Duration>,
    ) -> std::result::Result<Received, SendError<'a>> {
        self.task.send_receive(self.name, Disposition::CopySend, message, from.name(), timeout)
    }

    /// Asks for a notice at a port, by a send-once right that is made for it. Gives the right of the request before.
    pub fn request_notification(
        &self,
        about: Request,
        sync: u32,
        notify: &ReceiveRight,
    ) -> Result<Option<SendOnceRight>> {
        let made = Disposition::MakeSendOnce;
        let previous = self.task.request_notification(self.name, about, sync, notify.name(), made)?;
        Ok(previous.is_valid().then(|| SendOnceRight::from_name(&self.task, previous)))
    }
}

/// Makes a type for a right that has one owner.
macro_rules! owned {
    ($(#[$doc:meta])* $right:ident, $release:expr) => {
        $(#[$doc])*
        #[derive(Debug)]
        pub struct $right {
            port: Port,
            is_held: bool,
        }

        impl $right {
            /// Takes over the right that a name holds, or one reference of it. Two values for one right or reference would
            /// give it back twice.
            pub fn from_name(task: &Task, name: Name) -> $right {
                $right { port: Port::new(task.clone(), name), is_held: true }
            }

            /// Leaves the right in the space, and returns its name.
            pub fn forget(mut self) -> Name {
                self.is_held = false;
                self.name()
            }

            /// Gives the right back, and says how that went. Dropping it does the same and ignores a refusal.
            pub fn release(mut self) -> Result<()> {
                self.is_held = false;
                ($release)(&self.port)
            }
        }

        impl Drop for $right {
            fn drop(&mut self) {
                if self.is_held {
                    let _ = ($release)(&self.port);
                }
            }
        }

        impl Deref for $right {
            type Target = Port;

            fn deref(&self) -> &Port {
                &self.port
            }
        }
    };
}

owned! {
    /// The right to receive a port's messages. When it is dropped, the port dies.
    ReceiveRight, |port: &Port| port.task.mod_refs(port.name, Kind::Receive, -1)
}

owned! {
    /// One reference of a send right. If the port has died, it is one of the dead name.
    SendRight, |port: &Port| port.task.deallocate(port.name)
}

owned! {
    /// The right to send one message. When it is dropped unused, its port gets a send-once notice.
    SendOnceRight, |port: &Port| port.task.deallocate(port.name)
}

owned! {
    /// A set of ports, to receive from whichever has a message. When it is dropped, its members are in no set.
    PortSet, |port: &Port| port.task.mod_refs(port.name, Kind::PortSet, -1)
}

impl ReceiveRight {
    /// Receives the oldest message, and waits for one: forever, if the timeout is `None`.
    pub fn receive(&self, timeout: Option<Duration>) -> Result<Received> {
        self.receive_with(&ReceiveOptions { timeout, ..ReceiveOptions::default() })
    }

    /// Receives a message as these options say.
    pub fn receive_with(&self, options: &ReceiveOptions) -> Result<Received> {
        self.port.task.receive(self.port.name, options)
    }

    /// Sends a message to the port itself.
    pub fn send<'a>(&self, message: Message<'a>, timeout: Option<Duration>) -> std::result::Result<(), SendError<'a>> {
        self.port.task.send(self.port.name, Disposition::MakeSend, message, timeout)
    }

    /// Makes a send right.
    pub fn make_send(&self) -> Result<SendRight> {
        let Port { task, name } = &self.port;
        task.insert_right(*name, *name, Disposition::MakeSend)?;
        Ok(SendRight::from_name(task, *name))
    }

    /// Makes a send-once right.
    pub fn make_send_once(&self) -> Result<SendOnceRight> {
        let Port { task, name } = &self.port;
        Ok(SendOnceRight::from_name(task, task.extract_right(*name, Disposition::MakeSendOnce)?))
    }

    /// Returns the state of the port.
    pub fn status(&self) -> Result<PortStatus> {
        self.port.task.receive_status(self.port.name)
    }

    /// Sets how many messages the queue takes.
    pub fn set_queue_limit(&self, limit: u32) -> Result<()> {
        self.port.task.set_queue_limit(self.port.name, limit)
    }
}

impl SendRight {
    /// Makes another reference of the right.
    pub fn try_clone(&self) -> Result<SendRight> {
        self.port.task.mod_refs(self.port.name, Kind::Send, 1)?;
        Ok(SendRight::from_name(&self.port.task, self.port.name))
    }
}

impl SendOnceRight {
    /// Sends a message, and uses the right up. It never waits. If the message is refused, the right is given back, so that
    /// its port gets a send-once notice.
    pub fn send(self, message: Message<'_>) -> std::result::Result<(), SendError<'_>> {
        let sent = self.port.task.send(self.port.name, Disposition::MoveSendOnce, message, None);
        let is_unsent = matches!(&sent, Err(fault) if fault.is_unsent());
        if !is_unsent {
            self.forget();
        }
        sent
    }
}

impl PortSet {
    /// Puts a port into the set, out of the set that it is in.
    pub fn insert(&self, member: &ReceiveRight) -> Result<()> {
        self.port.task.move_member(member.name(), self.port.name)
    }

    /// Takes a port out of the set that it is in.
    pub fn remove(&self, member: &ReceiveRight) -> Result<()> {
        self.port.task.move_member(member.name(), Name::NULL)
    }

    /// Returns the names of the members.
    pub fn members(&self) -> Result<Vec<Name>> {
        self.port.task.set_status(self.port.name)
    }

    /// Receives the oldest message of a member that has one, and waits for one: forever, if the timeout is `None`.
    /// [`Received::port`] is the member.
    pub fn receive(&self, timeout: Option<Duration>) -> Result<Received> {
        self.receive_with(&ReceiveOptions { timeout, ..ReceiveOptions::default() })
    }

    /// Receives a message as these options say.
    pub fn receive_with(&self, options: &ReceiveOptions) -> Result<Received> {
        self.port.task.receive(self.port.name, options)
    }
}

/// A right that came in a message.
#[derive(Debug)]
pub enum Right {
    /// No right: the sender gave `MACH_PORT_NULL`.
    Null,
    /// A right whose port died on its way.
    Dead,
    /// A receive right.
    Receive(ReceiveRight),
    /// A send right.
    Send(SendRight),
    /// A send-once right.
    SendOnce(SendOnceRight),
}

impl Right {
    /// Returns the right of a name in a received message, by its type there.
    pub(crate) fn received(task: &Task, kind: u16, name: Name) -> Right {
        const RECEIVE: u16 = Disposition::MoveReceive as u16;
        const SEND: u16 = Disposition::MoveSend as u16;
        match (name, kind) {
            (Name::NULL, _) => Right::Null,
            (Name::DEAD, _) => Right::Dead,
            (name, RECEIVE) => Right::Receive(ReceiveRight::from_name(task, name)),
            (name, SEND) => Right::Send(SendRight::from_name(task, name)),
            (name, _) => Right::SendOnce(SendOnceRight::from_name(task, name)),
        }
    }

    /// Leaves the right in the space, and returns its name.
    pub fn forget(self) -> Name {
        match self {
            Right::Null => Name::NULL,
            Right::Dead => Name::DEAD,
            Right::Receive(right) => right.forget(),
            Right::Send(right) => right.forget(),
            Right::SendOnce(right) => right.forget(),
        }
    }

    /// Returns the receive right, if it is one; otherwise the right is given back.
    pub fn into_receive(self) -> Result<ReceiveRight> {
        match self {
            Right::Receive(right) => Ok(right),
            _ => Err(Error::KernInvalidRight),
        }
    }

    /// Returns the send right, if it is one; otherwise the right is given back.
    pub fn into_send(self) -> Result<SendRight> {
        match self {
            Right::Send(right) => Ok(right),
            _ => Err(Error::KernInvalidRight),
        }
    }

    /// Returns the send-once right, if it is one; otherwise the right is given back.
    pub fn into_send_once(self) -> Result<SendOnceRight> {
        match self {
            Right::SendOnce(right) => Ok(right),
            _ => Err(Error::KernInvalidRight),
        }
    }
}
