//! The client [`machipc`] for tokio.
//!
//! A [`Receiver`] owns a receive right or a set, and its [`receive`](Receiver::receive) can be cancelled at any moment, by a
//! timeout or in a `select!`: a message that it took all the same is what the next receive returns. Every other call of
//! [`machipc`] answers within a round trip, and [`call`] makes it on one of tokio's threads for such calls.
//!
//! ```
//! # fn main() -> Result<(), Box<dyn std::error::Error>> {
//! # tokio::runtime::Builder::new_current_thread().enable_all().build()?.block_on(async {
//! use machipc::{Message, Task};
//! use machipc_tokio::{call, send, send_receive, Receiver};
//!
//! let task = call(Task::adopt).await?;
//! let service = task.allocate()?;
//! let right = service.make_send()?;
//! let service = Receiver::new(service);
//! let server = tokio::spawn(async move {
//!     let mut request = service.receive(None).await?;
//!     let answer = Message::with_body(600, &request.body().to_ascii_uppercase());
//!     let reply = request.take_reply();
//!     call(move || reply.map(|it| it.send(answer)).transpose().map_err(machipc::Error::from)).await
//! });
//!
//! let port = task.allocate()?;
//! let question = Message::with_body(500, b"text").reply_to(&port).detach();
//! let answer = send_receive(&right, question, &Receiver::new(port), None).await?;
//! assert_eq!((answer.id(), answer.body()), (600, &b"TEXT"[..]));
//! server.await??;
//! # Ok(())
//! # })
//! # }
//! ```
//!
//! # What is cancelled
//!
//! A receive takes messages one by one, in calls that run to their ends and put the message into the receiver. In between
//! it waits for a message by a call that takes none ([`machipc::Watch`]). So whatever is dropped, no message is lost; with
//! [`machipc::Options::once`] that holds while the server is killed, too. A [`send`] that is cancelled is made or not.
//!
//! Dropping a right or a message with rights makes a call, and blocks as long; [`release`] does it on another thread.

#![forbid(unsafe_code)]
#![warn(missing_docs, rust_2018_idioms)]

mod receiver;

use std::time::Duration;

use machipc::{Error, Message, Port, Received, Result};
pub use receiver::Receiver;
use tokio::task::{self, JoinError};
use tokio::time::{sleep, Instant};

/// The pauses of a send that waits for room in a queue.
const FIRST_PAUSE: Duration = Duration::from_millis(1);
const LONGEST_PAUSE: Duration = Duration::from_millis(50);

/// Makes a call that blocks on a thread for such calls. If the future is dropped, the call is still made to its end.
///
/// # Panics
///
/// If the call panics, or if the runtime shuts down before it begins.
pub async fn call<T: Send + 'static>(made: impl FnOnce() -> T + Send + 'static) -> T {
    task::spawn_blocking(made).await.unwrap_or_else(|fault: JoinError| match fault.try_into_panic() {
        Ok(panic) => std::panic::resume_unwind(panic),
        Err(fault) => panic!("the runtime shut down before a call: {fault}"),
    })
}

/// Drops a right, or a message with rights, on another thread.
pub async fn release<T: Send + 'static>(dropped: T) {
    call(move || drop(dropped)).await
}

/// Sends a message by the send right of a name, and waits for room in the queue: forever, if the timeout is `None`.
///
/// If the future is dropped, the message is sent or not. Its rights are given back if it isn't.
pub async fn send(port: &Port, message: Message<'static>, timeout: Option<Duration>) -> Result<()> {
    let end = timeout.and_then(|it| Instant::now().checked_add(it));
    let (mut message, mut pause) = (message, FIRST_PAUSE);
    loop {
        let to = port.clone();
        let refused = match call(move || to.send(message, Some(Duration::ZERO))).await {
            Ok(()) => return Ok(()),
            Err(refused) => refused,
        };
        let left = end.map_or(LONGEST_PAUSE, |end| end.saturating_duration_since(Instant::now()));
        if refused.error() != &Error::MachSendTimedOut || left.is_zero() {
            let error = refused.error().clone();
            release(refused).await;
            return Err(error);
        }
        message = refused.into_message().ok_or(Error::MachSendTimedOut)?;
        sleep(pause.min(left)).await;
        pause = (2 * pause).min(LONGEST_PAUSE);
    }
}

/// Sends a message and then receives one, as a client does that asks a server. Each half has the timeout.
///
/// If the future is dropped, the reply is what the next receive from `from` returns.
pub async fn send_receive(
    port: &Port,
    message: Message<'static>,
    from: &Receiver,
    timeout: Option<Duration>,
) -> Result<Received> {
    send(port, message, timeout).await?;
    from.receive(timeout).await
}

#[cfg(doctest)]
#[doc = include_str!("../README.md")]
struct Readme;
