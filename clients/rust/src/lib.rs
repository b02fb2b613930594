//! Mach 3 IPC over the socket of a server: ports, rights and messages, as in Loepere, *Mach 3 Kernel Interfaces* (1992).
//!
//! A [`Task`] is a space of a server, and makes the calls. Rights are values with one owner: a [`ReceiveRight`], a
//! [`SendRight`] or a [`SendOnceRight`] is moved into a [`Message`] and comes out of a [`Received`] one; dropping it gives
//! it back to the server, and `forget` leaves it in the space. A call that is refused gives an [`Error`] with Mach's name.
//!
//! # A port and a message
//!
//! [`Task::connect`] takes the path of a server's socket (`machipcd --socket PATH STORE`). The examples of these pages use
//! [`Task::adopt`], as a program does that `machrun PATH PROGRAM` runs.
//!
//! ```
//! # fn main() -> Result<(), Box<dyn std::error::Error>> {
//! use machipc::{Error, Message, Task};
//! use std::time::Duration;
//!
//! let task = Task::adopt()?;
//! let port = task.allocate()?;
//! port.send(Message::with_body(7, b"four"), None).map_err(Error::from)?;
//!
//! let received = port.receive(Some(Duration::from_secs(1)))?;
//! assert_eq!((received.id(), received.body()), (7, &b"four"[..]));
//! assert_eq!(port.receive(Some(Duration::ZERO)).unwrap_err(), Error::MachRcvTimedOut);
//! # Ok(())
//! # }
//! ```
//!
//! # A request and its reply
//!
//! A client lets a server reply once, by a send-once right that is made for the message. A server that drops the request
//! gives that right back, and the client gets a send-once notice in place of a reply.
//!
//! ```
//! # fn main() -> Result<(), Box<dyn std::error::Error>> {
//! use machipc::{Error, Message, Task};
//!
//! let task = Task::adopt()?;
//! let service = task.allocate()?;
//! let right = service.make_send()?;
//! let server = std::thread::spawn(move || -> Result<(), Error> {
//!     let mut request = service.receive(None)?;
//!     let upper = request.body().to_ascii_uppercase();
//!     if let Some(reply) = request.take_reply() {
//!         reply.send(Message::with_body(request.id() + 100, &upper))?;
//!     }
//!     Ok(())
//! });
//!
//! let port = task.allocate()?;
//! let question = Message::with_body(500, b"text").reply_to(&port);
//! let answer = right.send_receive(question, &port, None).map_err(Error::from)?;
//! assert_eq!((answer.id(), answer.body()), (600, &b"TEXT"[..]));
//! server.join().unwrap()?;
//! # Ok(())
//! # }
//! ```
//!
//! A [`Server`] receives requests in a loop, calls a handler for each id, and sends the replies.
//!
//! # Rights have one owner
//!
//! A right that was moved into a message can't be used again; the compiler refuses it:
//!
//! ```compile_fail,E0382
//! # fn try_it(task: machipc::Task) -> Result<(), machipc::Error> {
//! let port = task.allocate()?;
//! let right = port.make_send()?;
//! let message = machipc::Message::new(1).send_right(right);
//! right.send(machipc::Message::new(2), None).map_err(machipc::Error::from)
//! # }
//! ```
//!
//! # When the connection is cut
//!
//! A call whose connection is cut fails with an error that [`Error::is_cut`] knows, and the next call connects anew, by any
//! of the paths of [`Task::connect`]. With several paths an answer that is later than [`Task::answer_time`] counts as a cut.
//! The error doesn't say whether the call was made. With [`Options::once`] it is made once and answered, however often the
//! connection or the server goes away meanwhile:
//!
//! ```
//! # fn main() -> Result<(), Box<dyn std::error::Error>> {
//! let task = machipc::Options::new().once(true).adopt()?;
//! let port = task.allocate()?;
//! assert_eq!(port.status()?.queue_limit, 5);
//! # Ok(())
//! # }
//! ```
//!
//! # Threads and event loops
//!
//! Every type is `Send`, and all but [`Server`] are `Sync`. Each call takes a connection of its own while it lasts. A
//! [`Watch`] waits for a message without taking it, and has a descriptor for an event loop; the crate `machipc-tokio` does
//! so for tokio.
//!
//! A drop that gives a right back makes a call, and with [`Options::once`] it may wait as long as the patience.

#![deny(unsafe_code)]
#![warn(missing_docs, rust_2018_idioms)]

#[cfg(not(target_os = "linux"))]
compile_error!("machipc takes connections from machrun by Linux's numbers and structures");

mod connection;
mod deadline;
mod error;
mod items;
mod message;
mod messaging;
mod name;
mod paths;
mod received;
mod rights;
#[allow(unsafe_code)]
mod scm;
mod server;
mod shared;
mod task;
mod wire;

pub use connection::Connection;
pub use error::{Error, Result};
pub use items::{kinds, Data, Item, Items, Malformed};
pub use message::{Message, SendError};
pub use messaging::{ReceiveOptions, Watch};
pub use name::{Disposition, Kind, Name, PortStatus, Request, Type};
pub use received::{Notice, Received, Reply};
pub use rights::{Port, PortSet, ReceiveRight, Right, SendOnceRight, SendRight};
pub use server::{Fault, Handled, Server, Stopper};
pub use task::{AdoptError, Options, Task};

/// The space that is always there.
pub const FIRST_SPACE: u32 = 1;

#[cfg(doctest)]
#[doc = include_str!("../README.md")]
struct Readme;
