//! Receives that can be cancelled.

use std::collections::VecDeque;
use std::ops::Deref;
use std::sync::{Arc, Mutex, MutexGuard, PoisonError};
use std::time::Duration;

use machipc::{Error, Port, PortSet, ReceiveOptions, ReceiveRight, Received, Result, Watch};
use tokio::io::unix::AsyncFd;
use tokio::io::Interest;
use tokio::time::{sleep, timeout_at, Instant};

use crate::call;

/// The pause before a wait that was cut begins again.
const PAUSE: Duration = Duration::from_millis(20);

/// A receive right or a set, and the messages that cancelled receives took.
#[derive(Debug)]
pub struct Receiver {
    mailbox: Arc<Mailbox>,
}

#[derive(Debug)]
struct Mailbox {
    source: Source,
    /// Held while a message is taken, so that they come in order.
    turn: Mutex<()>,
    messages: Mutex<VecDeque<Received>>,
}

#[derive(Debug)]
enum Source {
    Port(ReceiveRight),
    Set(PortSet),
}

impl Deref for Source {
    type Target = Port;

    fn deref(&self) -> &Port {
        match self {
            Source::Port(right) => right,
            Source::Set(set) => set,
        }
    }
}

fn lock<T>(mutex: &Mutex<T>) -> MutexGuard<'_, T> {
    mutex.lock().unwrap_or_else(PoisonError::into_inner)
}

impl Mailbox {
    /// Takes a message out of the queue, unless there is one that a cancelled receive took.
    fn fill(&self) -> Result<()> {
        let _turn = lock(&self.turn);
        if !lock(&self.messages).is_empty() {
            return Ok(());
        }
        let now = ReceiveOptions { timeout: Some(Duration::ZERO), ..ReceiveOptions::default() };
        match self.source.task().receive(self.source.name(), &now) {
            Ok(message) => lock(&self.messages).push_back(message),
            Err(Error::MachRcvTimedOut) => {}
            Err(other) => return Err(other),
        }
        Ok(())
    }

    fn pop(&self) -> Option<Received> {
        lock(&self.messages).pop_front()
    }
}

impl From<ReceiveRight> for Receiver {
    fn from(right: ReceiveRight) -> Receiver {
        Receiver::of(Source::Port(right))
    }
}

impl From<PortSet> for Receiver {
    fn from(set: PortSet) -> Receiver {
        Receiver::of(Source::Set(set))
    }
}

impl Receiver {
    fn of(source: Source) -> Receiver {
        Receiver { mailbox: Arc::new(Mailbox { source, turn: Mutex::new(()), messages: Mutex::default() }) }
    }

    /// Receives from a port or from a set, which it owns.
    pub fn new(source: impl Into<Receiver>) -> Receiver {
        source.into()
    }

    /// Returns the name of the port or set, with the calls on it.
    pub fn port(&self) -> &Port {
        &self.mailbox.source
    }

    /// Receives a message, and waits for one: forever, if the timeout is `None`. It may be cancelled at any moment.
    pub async fn receive(&self, timeout: Option<Duration>) -> Result<Received> {
        let end = timeout.and_then(|it| Instant::now().checked_add(it));
        loop {
            let mailbox = self.mailbox.clone();
            call(move || mailbox.fill()).await?;
            if let Some(message) = self.mailbox.pop() {
                return Ok(message);
            }
            if end.map_or(false, |end| end <= Instant::now()) {
                return Err(Error::MachRcvTimedOut);
            }
            self.wait(end).await?;
        }
    }

    /// Waits for a message, or until the time is over or the server has to answer all the same. A task that numbers its
    /// calls waits again after a cut.
    async fn wait(&self, end: Option<Instant>) -> Result<()> {
        let task = self.port().task();
        let mut first_cut = None;
        loop {
            match self.watch(end).await {
                Err(Error::MachRcvTimedOut) => return Ok(()),
                Err(fault) if fault.is_cut() && task.is_once() => {
                    let first_cut = *first_cut.get_or_insert_with(Instant::now);
                    if task.patience().map_or(false, |it| it <= first_cut.elapsed()) {
                        return Err(fault);
                    }
                    sleep(PAUSE).await;
                }
                waited => return waited,
            }
        }
    }

    /// Waits by a call that takes no message, on a connection of its own.
    async fn watch(&self, end: Option<Instant>) -> Result<()> {
        let port = self.port().clone();
        let time = port.task().answer_time();
        let late = time.map(|it| Instant::now() + 2 * it);
        let watch: Watch = call(move || port.task().watch(port.name(), time)).await?;
        let cut = |fault: std::io::Error| Error::MachRcvInterrupted(fault.kind());
        let readable = AsyncFd::with_interest(watch, Interest::READABLE).map_err(cut)?;
        match end.into_iter().chain(late).min() {
            None => drop(readable.readable().await.map_err(cut)?),
            Some(first) => match timeout_at(first, readable.readable()).await {
                Ok(ready) => drop(ready.map_err(cut)?),
                Err(_) if late.map_or(true, |late| Instant::now() < late) => return Ok(()),
                Err(_) => {}
            },
        }
        readable.into_inner().finish()
    }
}
