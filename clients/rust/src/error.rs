//! Refusals, by Mach's names.

use std::fmt;
use std::io;

use crate::Name;

/// The result of a call.
pub type Result<T> = std::result::Result<T, Error>;

/// A table of the codes: variant, number, Mach's name, and meaning.
macro_rules! errors {
    ($($variant:ident = $code:literal, $name:literal, $meaning:literal;)*) => {
        /// A call that was refused, or that the connection didn't survive.
        ///
        /// [`Error::code`] is Mach's number, and `Display` prints Mach's name first.
        #[derive(Clone, Debug, PartialEq, Eq)]
        #[non_exhaustive]
        pub enum Error {
            $(#[doc = concat!("`", $name, "`: ", $meaning, ".")] $variant,)*
            /// `MACH_SEND_INTERRUPTED`: the connection was cut before the call went out, or in a send. A send may have
            /// been made or not.
            MachSendInterrupted(io::ErrorKind),
            /// `MACH_RCV_INTERRUPTED`: the connection was cut before the reply. The call was made or not.
            MachRcvInterrupted(io::ErrorKind),
            /// `MACH_RCV_TOO_LARGE`: the message is larger than the limit.
            MachRcvTooLarge {
                /// Bytes of header and body.
                size: u32,
                /// The port that the message came to.
                port: Name,
            },
            /// A code without a name.
            Unknown(u32),
        }

        impl Error {
            /// Returns the error of a code, for example of the code in a reply that refuses a request.
            pub fn from_code(code: u32) -> Error {
                match code {
                    $($code => Error::$variant,)*
                    0x1000_0007 => Error::MachSendInterrupted(io::ErrorKind::Other),
                    0x1000_4004 => Error::MachRcvTooLarge { size: 0, port: Name::NULL },
                    0x1000_4005 => Error::MachRcvInterrupted(io::ErrorKind::Other),
                    _ => Error::Unknown(code),
                }
            }

            /// Returns Mach's number of the code.
            pub fn code(&self) -> u32 {
                match self {
                    $(Error::$variant => $code,)*
                    Error::MachSendInterrupted(_) => 0x1000_0007,
                    Error::MachRcvInterrupted(_) => 0x1000_4005,
                    Error::MachRcvTooLarge { .. } => 0x1000_4004,
                    Error::Unknown(code) => *code,
                }
            }

            /// Returns Mach's name of the code, and its meaning.
            fn words(&self) -> (&'static str, &'static str) {
                match self {
                    $(Error::$variant => ($name, $meaning),)*
                    Error::MachSendInterrupted(_) => ("MACH_SEND_INTERRUPTED", "the connection was cut, or there is none"),
                    Error::MachRcvInterrupted(_) => ("MACH_RCV_INTERRUPTED", "the connection was cut before the reply"),
                    Error::MachRcvTooLarge { .. } => ("MACH_RCV_TOO_LARGE", "the message is larger than the limit"),
                    Error::Unknown(_) => ("unknown return code", "no header names it"),
                }
            }
        }
    };
}

errors! {
    KernNoSpace = 3, "KERN_NO_SPACE", "the space has as many names as it may have";
    KernInvalidArgument = 4, "KERN_INVALID_ARGUMENT", "no such call, or arguments that it can't have";
    KernFailure = 5, "KERN_FAILURE", "the call can't be made";
    KernResourceShortage = 6, "KERN_RESOURCE_SHORTAGE", "out of memory, ports, spaces, or room to store the call";
    KernNoAccess = 8, "KERN_NO_ACCESS", "the connection is confined to its space";
    KernNotInSet = 12, "KERN_NOT_IN_SET", "the port is in no set";
    KernNameExists = 13, "KERN_NAME_EXISTS", "the name is in use";
    KernInvalidName = 15, "KERN_INVALID_NAME", "the name isn't in use";
    KernInvalidTask = 16, "KERN_INVALID_TASK", "the space doesn't exist";
    KernInvalidRight = 17, "KERN_INVALID_RIGHT", "the name doesn't hold such a right";
    KernInvalidValue = 18, "KERN_INVALID_VALUE", "a value out of its range";
    KernUrefsOverflow = 19, "KERN_UREFS_OVERFLOW", "more user references than a name may have";
    KernInvalidCapability = 20, "KERN_INVALID_CAPABILITY", "the right can't be given";
    KernRightExists = 21, "KERN_RIGHT_EXISTS", "the space has the right under another name";
    MachSendInvalidDest = 0x1000_0003, "MACH_SEND_INVALID_DEST", "the destination is no right to send by";
    MachSendTimedOut = 0x1000_0004, "MACH_SEND_TIMED_OUT", "the queue is full, and the time is over";
    MachSendMsgTooSmall = 0x1000_0008, "MACH_SEND_MSG_TOO_SMALL", "a size that no message has, or items past the end";
    MachSendInvalidReply = 0x1000_0009, "MACH_SEND_INVALID_REPLY", "the local port is no right to reply by";
    MachSendInvalidRight = 0x1000_000a, "MACH_SEND_INVALID_RIGHT", "a right of the body can't be taken";
    MachSendInvalidMemory = 0x1000_000c, "MACH_SEND_INVALID_MEMORY", "data out of line";
    MachSendNoBuffer = 0x1000_000d, "MACH_SEND_NO_BUFFER", "above 8,192 bytes or 256 rights, or out of memory";
    MachSendInvalidType = 0x1000_000f, "MACH_SEND_INVALID_TYPE", "an invalid descriptor";
    MachSendInvalidHeader = 0x1000_0010, "MACH_SEND_INVALID_HEADER", "invalid dispositions";
    MachRcvInvalidName = 0x1000_4002, "MACH_RCV_INVALID_NAME", "neither a receive right nor a set";
    MachRcvTimedOut = 0x1000_4003, "MACH_RCV_TIMED_OUT", "no message came in time";
    MachRcvPortChanged = 0x1000_4006, "MACH_RCV_PORT_CHANGED", "the port was moved into a set meanwhile";
    MachRcvPortDied = 0x1000_4009, "MACH_RCV_PORT_DIED", "the receive right or the set went meanwhile";
    MachRcvInSet = 0x1000_400a, "MACH_RCV_IN_SET", "the port is in a set: receive from that";
    MachRcvHeaderErrorIpcSpace = 0x1000_600b, "MACH_RCV_HEADER_ERROR|MACH_MSG_IPC_SPACE", "no names are left for its rights";
    MachRcvHeaderErrorIpcKernel = 0x1000_480b, "MACH_RCV_HEADER_ERROR|MACH_MSG_IPC_KERNEL", "the server is out of memory";
    MigTypeError = 0xffff_fed4, "MIG_TYPE_ERROR", "the arguments of a request have other types";
    MigReplyMismatch = 0xffff_fed3, "MIG_REPLY_MISMATCH", "what came from the server is no reply to the call";
    MigRemoteError = 0xffff_fed2, "MIG_REMOTE_ERROR", "the server failed at a request";
    MigBadId = 0xffff_fed1, "MIG_BAD_ID", "the server has no such request";
    MigBadArguments = 0xffff_fed0, "MIG_BAD_ARGUMENTS", "the arguments of a request are invalid";
}

impl Error {
    /// Returns true if the time of a send or of a receive is over.
    pub fn is_timeout(&self) -> bool {
        matches!(self, Error::MachSendTimedOut | Error::MachRcvTimedOut)
    }

    /// Returns true if the connection was cut, or none can be made.
    pub fn is_cut(&self) -> bool {
        matches!(self, Error::MachSendInterrupted(_) | Error::MachRcvInterrupted(_))
    }

    /// Returns the error with which a send reports this cut.
    pub(crate) fn of_send(self) -> Error {
        match self {
            Error::MachRcvInterrupted(kind) => Error::MachSendInterrupted(kind),
            other => other,
        }
    }

    /// Returns the error with which a receive reports this cut.
    pub(crate) fn of_receive(self) -> Error {
        match self {
            Error::MachSendInterrupted(kind) => Error::MachRcvInterrupted(kind),
            other => other,
        }
    }
}

impl fmt::Display for Error {
    fn fmt(&self, f: &mut fmt::Formatter<'_>) -> fmt::Result {
        let (name, meaning) = self.words();
        write!(f, "{name} ({:#x}): {meaning}", self.code())?;
        match self {
            Error::MachSendInterrupted(kind) | Error::MachRcvInterrupted(kind) => write!(f, " ({kind})"),
            Error::MachRcvTooLarge { size, port } => write!(f, " ({size} bytes at port {port})"),
            _ => Ok(()),
        }
    }
}

impl std::error::Error for Error {}
