//! A server's loop, as `mach_msg_server` of the C library has it.

use std::collections::HashMap;
use std::fmt;
use std::sync::atomic::{AtomicBool, Ordering};
use std::sync::Arc;
use std::time::Duration;

use crate::message::LARGEST;
use crate::messaging::ReceiveOptions;
use crate::{Error, Message, Port, Received, Result};

/// Why a handler refuses a request. The client gets the code of an [`Error`], and `MigRemoteError` for any other fault.
pub type Fault = Box<dyn std::error::Error>;

/// What a handler makes of a request: its reply, or `None` if the handler sends no reply, or sends it itself.
pub type Handled<'a> = std::result::Result<Option<Message<'a>>, Fault>;

type Handler<'a> = Box<dyn FnMut(&mut Received) -> Handled<'a> + Send + 'a>;
type FaultHandler<'a> = Box<dyn FnMut(i32, &Fault) + Send + 'a>;

/// Receives requests of a port or a set, hands each to the handler of its id, and sends the reply.
///
/// A handler takes what it keeps out of the request: rights by [`Received::take_rights`], and the right to reply by
/// [`Received::take_reply`] if it replies later. The server gives back the other rights before it replies. If nobody took
/// the right to reply and there is no reply, the client gets a send-once notice.
///
/// A handler that fails refuses the request, and the server serves on. The reply is that of a stub of the Mach Interface
/// Generator: the request's id plus 100, and the code. A request without a handler is refused with `MigBadId`. A panic
/// ends the loop.
///
/// ```
/// # fn main() -> Result<(), Box<dyn std::error::Error>> {
/// use machipc::{Error, Message, Server, Task};
///
/// let task = Task::adopt()?;
/// let service = task.allocate()?;
/// let right = service.make_send()?;
/// let mut server = Server::new();
/// let stopper = server.stopper();
/// let mut sum = 0;
/// server.on(500, move |request| {
///     let data = request.items().next().ok_or(Error::MigBadArguments)??.data().ok_or(Error::MigBadArguments)?;
///     sum += data.words().sum::<u32>();
///     Ok(Some(request.answer().words(&[sum])))
/// });
/// server.on(501, move |request| {
///     stopper.stop();
///     Ok(Some(request.answer()))
/// });
/// let running = std::thread::spawn(move || server.run(&service, None));
///
/// let port = task.allocate()?;
/// let ask = |question: Message<'static>| -> Result<Vec<u32>, Error> {
///     let answer = right.send_receive(question.reply_to(&port), &port, None).map_err(Error::from)?;
///     Ok(answer.items().flatten().filter_map(|item| item.data()).flat_map(|data| data.words()).collect())
/// };
/// assert_eq!(ask(Message::new(500).words(&[1, 2]))?, [3]);
/// assert_eq!(ask(Message::new(500).words(&[4]))?, [7]);
/// assert_eq!(ask(Message::new(500))?, [Error::MigBadArguments.code()]);
/// assert_eq!(ask(Message::new(7))?, [Error::MigBadId.code()]);
/// assert!(ask(Message::new(501))?.is_empty());
/// running.join().unwrap()?;
/// # Ok(())
/// # }
/// ```
pub struct Server<'a> {
    handlers: HashMap<i32, Handler<'a>>,
    fault_handler: Option<FaultHandler<'a>>,
    limit: u32,
    stopper: Stopper,
}

impl<'a> Server<'a> {
    /// A server without handlers.
    pub fn new() -> Server<'a> {
        Server { handlers: HashMap::new(), fault_handler: None, limit: LARGEST as u32, stopper: Stopper::default() }
    }

    /// Sets the handler of the requests with this id, in place of an earlier one.
    pub fn on(&mut self, id: i32, handler: impl FnMut(&mut Received) -> Handled<'a> + Send + 'a) {
        self.handlers.insert(id, Box::new(handler));
    }

    /// Sets the function that gets a request's id and the fault if a handler fails with another fault than an [`Error`], as
    /// for a log.
    pub fn on_fault(&mut self, handler: impl FnMut(i32, &Fault) + Send + 'a) {
        self.fault_handler = Some(Box::new(handler));
    }

    /// Sets the most bytes of a request, header and body. A larger one is destroyed, and the server serves on.
    pub fn set_limit(&mut self, limit: u32) {
        self.limit = limit;
    }

    /// Returns what ends the loop, for a handler or another thread.
    pub fn stopper(&self) -> Stopper {
        self.stopper.clone()
    }

    /// Serves a receive right or a set until it is stopped. It fails with `MachRcvTimedOut` if no request comes for the
    /// timeout, or with the refusal of a receive; the server may run again then.
    pub fn run(&mut self, port: &Port, timeout: Option<Duration>) -> Result<()> {
        let options = ReceiveOptions { timeout, limit: self.limit, keep_large: false };
        while !self.stopper.take() {
            match port.task().receive(port.name(), &options) {
                Ok(request) => self.handle(request),
                Err(Error::MachRcvTooLarge { .. }) => {}
                Err(other) => return Err(other),
            }
        }
        Ok(())
    }

    /// Handles one request, and sends its reply. A reply that the client doesn't take is dropped, and its rights are given
    /// back.
    pub fn handle(&mut self, mut request: Received) {
        let answer = match self.call(&mut request) {
            Ok(answer) => answer,
            Err(fault) => Some(self.refusal(&request, &fault)),
        };
        let reply = request.take_reply();
        drop(request);
        if let (Some(reply), Some(answer)) = (reply, answer) {
            let _ = reply.send(answer);
        }
    }

    fn call(&mut self, request: &mut Received) -> Handled<'a> {
        let handler = self.handlers.get_mut(&request.id()).ok_or(Error::MigBadId)?;
        handler(request)
    }

    fn refusal(&mut self, request: &Received, fault: &Fault) -> Message<'static> {
        let code = fault.downcast_ref::<Error>().map(Error::code);
        if let (None, Some(handler)) = (code, &mut self.fault_handler) {
            handler(request.id(), fault);
        }
        request.answer().words(&[code.unwrap_or_else(|| Error::MigRemoteError.code())])
    }
}

impl Default for Server<'_> {
    fn default() -> Self {
        Server::new()
    }
}

impl fmt::Debug for Server<'_> {
    fn fmt(&self, f: &mut fmt::Formatter<'_>) -> fmt::Result {
        f.debug_struct("Server").field("ids", &self.handlers.keys()).field("limit", &self.limit).finish_non_exhaustive()
    }
}

/// Ends the loop of a [`Server`].
#[derive(Clone, Debug, Default)]
pub struct Stopper {
    is_stopped: Arc<AtomicBool>,
}

impl Stopper {
    /// Makes [`Server::run`] return after the request that is being handled. A server that waits for a request returns after
    /// the next one.
    pub fn stop(&self) {
        self.is_stopped.store(true, Ordering::Release);
    }

    /// Returns true if the loop is to end, and lets the next one begin.
    fn take(&self) -> bool {
        self.is_stopped.swap(false, Ordering::Acquire)
    }
}
