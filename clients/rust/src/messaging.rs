//! `mach_msg`: how a task sends and receives.

use std::os::unix::io::{AsRawFd, RawFd};
use std::sync::Arc;
use std::time::Duration;

use crate::deadline::{earlier, milliseconds, total, Deadline};
use crate::message::{HEADER, LARGEST};
use crate::shared::{Shared, Taken};
use crate::wire::{self, Answer, Call};
use crate::{Disposition, Error, Message, Name, Received, Result, SendError, Task};

/// How a message is received.
#[derive(Clone, Copy, Debug)]
pub struct ReceiveOptions {
    /// The longest wait for a message; `None` waits forever, and zero is one attempt.
    pub timeout: Option<Duration>,
    /// The most bytes of header and body.
    pub limit: u32,
    /// A message above the limit stays in the queue; otherwise it is destroyed.
    pub keep_large: bool,
}

impl Default for ReceiveOptions {
    fn default() -> ReceiveOptions {
        ReceiveOptions { timeout: None, limit: LARGEST as u32, keep_large: false }
    }
}

impl ReceiveOptions {
    fn large(&self) -> u32 {
        if self.keep_large {
            wire::RCV_LARGE
        } else {
            0
        }
    }
}

/// Reads the message of a reply: its refusal, or its bytes.
fn message_of(answer: Answer) -> Result<Vec<u8>> {
    let Answer { code, mut results } = answer;
    let refused = if code == 0 { Error::MigReplyMismatch } else { Error::from_code(code) };
    if results.len() < 8 {
        return Err(refused);
    }
    let (size, port) = (wire::word(&results, 0), Name(wire::word(&results, 4)));
    match refused {
        Error::MachRcvTooLarge { .. } => Err(Error::MachRcvTooLarge { size, port }),
        _ if code != 0 => Err(refused),
        _ if results.len() - 8 != size as usize => Err(Error::MigReplyMismatch),
        _ => {
            results.drain(..8);
            Ok(results)
        }
    }
}

/// Returns true if a refusal is one of the send, so that nothing was sent and the rights stayed.
fn is_of_send(error: &Error) -> bool {
    !matches!(error, Error::MachRcvInterrupted(_) | Error::MigReplyMismatch) && error.code() < 0x1000_4000
}

impl Task {
    /// Sends a message by the right that a name holds, and waits for room in the queue (`mach_msg`).
    pub fn send<'a>(
        &self,
        to: Name,
        disposition: Disposition,
        message: Message<'a>,
        timeout: Option<Duration>,
    ) -> std::result::Result<(), SendError<'a>> {
        let bytes = match message.encode(self, to, disposition) {
            Ok(bytes) => bytes,
            Err(error) => return Err(SendError::unsent(error, message)),
        };
        match self.send_bytes(&bytes, timeout) {
            Ok(()) => {
                message.forget();
                Ok(())
            }
            Err(error) => Err(self.send_error(error, message, Error::of_send)),
        }
    }

    /// Sends a message and then receives one (`mach_msg`). Each half has the timeout.
    pub fn send_receive<'a>(
        &self,
        to: Name,
        disposition: Disposition,
        message: Message<'a>,
        from: Name,
        timeout: Option<Duration>,
    ) -> std::result::Result<Received, SendError<'a>> {
        let options = ReceiveOptions { timeout, ..ReceiveOptions::default() };
        if self.is_once() {
            self.send(to, disposition, message, timeout)?;
            return self.receive(from, &options).map_err(|error| SendError::gone(error, Message::new(0)));
        }
        let bytes = match message.encode(self, to, disposition) {
            Ok(bytes) => bytes,
            Err(error) => return Err(SendError::unsent(error, message)),
        };
        let wait = Deadline::after(timeout);
        loop {
            let part = self.part(&wait);
            match self.mach_msg(wire::SEND_MSG | wire::RCV_MSG, options.limit, from, part, &bytes) {
                Err(Error::MachSendTimedOut) if !wait.is_over() => {}
                Err(Error::MachRcvTimedOut) if earlier(timeout, self.answer_time()) != timeout => {
                    message.forget();
                    let rest = timeout.map(|it| it.saturating_sub(part.unwrap_or_default()));
                    let rest = ReceiveOptions { timeout: rest, ..options };
                    return self.receive(from, &rest).map_err(|error| SendError::gone(error, Message::new(0)));
                }
                made => match made.and_then(|it| self.received(it, options.limit)) {
                    Ok(received) => {
                        message.forget();
                        return Ok(received);
                    }
                    Err(error) => return Err(self.send_error(error, message, |it| it)),
                },
            }
        }
    }

    /// Returns the part of a wait after which the server has to answer, or `None` if it may wait forever: over a path that is
    /// cut no answer comes.
    fn part(&self, wait: &Deadline) -> Option<Duration> {
        earlier(wait.left(), self.answer_time())
    }

    /// Makes a part of a call, of which each half has this timeout.
    fn mach_msg(&self, option: u32, limit: u32, name: Name, part: Option<Duration>, bytes: &[u8]) -> Result<Vec<u8>> {
        let has_both = option & wire::SEND_MSG != 0 && option & wire::RCV_MSG != 0;
        let call = Call::mach_msg(option | wire::timeouts(part), limit, name.0, milliseconds(part), bytes);
        let wait = if has_both { total(part, part) } else { part };
        self.shared.exchange_waiting(&call, wait).and_then(message_of)
    }

    /// Returns the error of a send, with the message if that wasn't sent. If the send was numbered, a cut leaves open
    /// whether it was.
    fn send_error<'a>(&self, error: Error, message: Message<'a>, shown: fn(Error) -> Error) -> SendError<'a> {
        let is_unknown = error.is_cut() && self.is_once();
        if is_of_send(&error) && !is_unknown {
            SendError::unsent(shown(error), message)
        } else {
            SendError::gone(shown(error), message)
        }
    }

    fn send_bytes(&self, bytes: &[u8], timeout: Option<Duration>) -> Result<()> {
        if self.is_once() {
            return self.send_once(bytes, timeout);
        }
        let wait = Deadline::after(timeout);
        loop {
            match self.mach_msg(wire::SEND_MSG, 0, Name::NULL, self.part(&wait), bytes) {
                Err(Error::MachSendTimedOut) if !wait.is_over() => {}
                sent => return sent.map(drop),
            }
        }
    }

    /// A numbered send is one attempt, so it is made again until there is room.
    fn send_once(&self, bytes: &[u8], timeout: Option<Duration>) -> Result<()> {
        let call = Call::mach_msg(wire::SEND_MSG | wire::SEND_TIMEOUT, 0, 0, 0, bytes);
        let mut wait = Deadline::after(timeout);
        loop {
            match self.shared.make(&call).and_then(message_of) {
                Err(Error::MachSendTimedOut) if wait.pause() => {}
                Err(Error::KernResourceShortage) => return Err(Error::MachSendNoBuffer),
                sent => return sent.map(drop),
            }
        }
    }

    /// Receives a message from a port or a set, and waits for one (`mach_msg`).
    pub fn receive(&self, name: Name, options: &ReceiveOptions) -> Result<Received> {
        if self.is_once() {
            return self.receive_once(name, options);
        }
        let wait = Deadline::after(options.timeout);
        loop {
            match self.mach_msg(wire::RCV_MSG | options.large(), options.limit, name, self.part(&wait), &[]) {
                Err(Error::MachRcvTimedOut) if !wait.is_over() => {}
                made => return self.received(made.map_err(Error::of_receive)?, options.limit),
            }
        }
    }

    fn received(&self, bytes: Vec<u8>, limit: u32) -> Result<Received> {
        if !(HEADER..=limit as usize).contains(&bytes.len()) {
            return Err(Error::MigReplyMismatch);
        }
        Ok(Received::new(self, bytes))
    }

    /// A numbered receive is one attempt. In between a call waits that takes nothing.
    fn receive_once(&self, name: Name, options: &ReceiveOptions) -> Result<Received> {
        let option = wire::RCV_MSG | wire::RCV_TIMEOUT | options.large();
        let call = Call::mach_msg(option, options.limit, name.0, 0, &[]);
        let wait = Deadline::after(options.timeout);
        loop {
            match self.shared.make(&call).and_then(message_of) {
                Ok(bytes) => return self.received(bytes, options.limit),
                Err(Error::MachRcvTimedOut) if !wait.is_over() => {}
                Err(Error::KernResourceShortage) => return Err(Error::MachRcvHeaderErrorIpcKernel),
                Err(other) => return Err(other.of_receive()),
            }
            self.wait_for_message(name, &wait)?;
        }
    }

    /// Waits until there is a message, and leaves it, or until the server has to answer all the same. A wait that is cut
    /// begins again.
    fn wait_for_message(&self, name: Name, wait: &Deadline) -> Result<()> {
        let mut patience = None;
        loop {
            match self.watch(name, self.part(wait)).and_then(Watch::finish) {
                Err(fault) if fault.is_cut() => {
                    if !patience.get_or_insert_with(|| Deadline::after(self.shared.patience)).pause() {
                        return Err(fault.of_receive());
                    }
                }
                waited => {
                    self.shared.count_repeat(patience.is_some());
                    return match waited {
                        Err(Error::MachRcvTimedOut) => Ok(()),
                        waited => waited,
                    };
                }
            }
        }
    }

    /// Begins to wait for a message of a port or a set, for an event loop. The wait takes no message.
    ///
    /// It ends with `MachRcvTimedOut` after the timeout, and without one never so. With several paths use
    /// [`Task::answer_time`], or less: a path that is cut is noticed that much later.
    pub fn watch(&self, name: Name, timeout: Option<Duration>) -> Result<Watch> {
        let option = wire::RCV_MSG | wire::RCV_LARGE | (wire::timeouts(timeout) & wire::RCV_TIMEOUT);
        let call = Call::mach_msg(option, 0, name.0, milliseconds(timeout), &[]);
        let mut taken = self.shared.take()?;
        let end = self.shared.end_of_answer(timeout);
        if let Err(fault) = taken.connection.write(&call, &end) {
            self.shared.renew(false);
            return Err(fault);
        }
        Ok(Watch { shared: self.shared.clone(), taken, call, end })
    }
}

/// A wait for a message that takes none, on a connection of its own.
///
/// Its descriptor becomes readable when the wait is over. With several paths it has to within the wait's timeout and
/// [`Task::answer_time`]: later the path counts as cut, and [`Watch::finish`] says so. Dropping it ends the wait, and loses
/// nothing.
///
/// ```
/// # fn main() -> Result<(), machipc::AdoptError> {
/// # let task = machipc::Task::adopt()?;
/// use std::time::Duration;
///
/// let port = task.allocate()?;
/// let watch = task.watch(port.name(), task.answer_time())?;
/// port.send(machipc::Message::new(7), None).map_err(machipc::Error::from)?;
/// // An event loop waits here until `watch.as_raw_fd()` is readable.
/// watch.finish()?;
/// assert_eq!(port.receive(Some(Duration::ZERO))?.id(), 7);
/// # Ok(())
/// # }
/// ```
#[derive(Debug)]
pub struct Watch {
    shared: Arc<Shared>,
    taken: Taken,
    call: Call,
    end: Deadline,
}

impl Watch {
    /// Says how the wait ended, and waits for that if it isn't over. `Ok`: there was a message, which another thread may
    /// take first.
    pub fn finish(self) -> Result<()> {
        let Watch { shared, mut taken, call, end } = self;
        let answer = match taken.connection.read(&call, &end) {
            Ok(answer) => answer,
            Err(fault) => {
                shared.renew(false);
                return Err(fault);
            }
        };
        shared.put_back(taken);
        match message_of(answer) {
            Err(Error::MachRcvTooLarge { .. }) => Ok(()),
            Err(other) => Err(other),
            Ok(_) => Err(Error::MigReplyMismatch),
        }
    }
}

impl AsRawFd for Watch {
    fn as_raw_fd(&self) -> RawFd {
        self.taken.connection.stream().as_raw_fd()
    }
}
