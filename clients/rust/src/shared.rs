//! The state that all clones of a task share: the way to the server, idle connections, and the numbering of calls.

use std::sync::atomic::{AtomicU64, Ordering};
use std::sync::{Mutex, MutexGuard, PoisonError};
use std::time::Duration;

use crate::connection::{Connection, Route};
use crate::deadline::{answer_time, total, Deadline};
use crate::wire::{self, Answer, Call};
use crate::{Error, Name, Result};

/// Connections beyond this number are closed after their calls.
const MOST_IDLE: usize = 16;

#[derive(Debug)]
pub(crate) struct Shared {
    pub(crate) route: Route,
    pub(crate) space: u32,
    pub(crate) bootstrap: Name,
    pub(crate) start: u32,
    pub(crate) patience: Option<Duration>,
    pub(crate) repeats: AtomicU64,
    /// The number that the space used last, if calls are numbered. The lock is held until a call is answered, since a
    /// space keeps only its last request.
    pub(crate) last_request: Option<Mutex<u32>>,
    pub(crate) idle: Mutex<Idle>,
}

#[derive(Debug)]
pub(crate) struct Idle {
    connections: Vec<Connection>,
    is_confined: bool,
    /// Increases whenever the open connections become useless: those in use then aren't kept after their calls.
    generation: u64,
}

impl Idle {
    pub(crate) fn new(is_confined: bool) -> Mutex<Idle> {
        Mutex::new(Idle { connections: Vec::new(), is_confined, generation: 0 })
    }
}

/// A connection that is taken for one call, and its generation.
#[derive(Debug)]
pub(crate) struct Taken {
    pub(crate) connection: Connection,
    generation: u64,
}

pub(crate) fn lock<T>(mutex: &Mutex<T>) -> MutexGuard<'_, T> {
    mutex.lock().unwrap_or_else(PoisonError::into_inner)
}

impl Shared {
    // Connections.

    pub(crate) fn is_confined(&self) -> bool {
        lock(&self.idle).is_confined
    }

    /// Returns an idle connection, or a new one.
    pub(crate) fn take(&self) -> Result<Taken> {
        let (found, is_confined, generation) = {
            let mut idle = lock(&self.idle);
            (idle.connections.pop(), idle.is_confined, idle.generation)
        };
        let connection = found.map_or_else(|| self.route.open(self.space, is_confined, self.patience), Ok)?;
        Ok(Taken { connection, generation })
    }

    /// Keeps a connection for the next call.
    pub(crate) fn put_back(&self, taken: Taken) {
        let mut idle = lock(&self.idle);
        if taken.generation == idle.generation && idle.connections.len() < MOST_IDLE {
            idle.connections.push(taken.connection);
        }
    }

    /// Closes all connections: one was cut, so the others are too, or they aren't confined yet.
    pub(crate) fn renew(&self, is_confined: bool) {
        let mut idle = lock(&self.idle);
        idle.connections.clear();
        idle.generation += 1;
        idle.is_confined |= is_confined;
    }

    /// Returns the time within which the server has to answer; with one path `None`, since no other path could do better, and
    /// a server whose disk hangs answers late.
    pub(crate) fn answer_time(&self) -> Option<Duration> {
        self.route.has_others().then(|| answer_time(self.patience))
    }

    /// Returns when the server has to have answered a call that waits for this time.
    pub(crate) fn end_of_answer(&self, wait: Option<Duration>) -> Deadline {
        Deadline::after(total(wait, self.answer_time()))
    }

    /// Makes a call that doesn't wait, once.
    pub(crate) fn exchange(&self, call: &Call) -> Result<Answer> {
        self.exchange_waiting(call, Some(Duration::ZERO))
    }

    /// Makes a call that waits for at most this time, once.
    pub(crate) fn exchange_waiting(&self, call: &Call, wait: Option<Duration>) -> Result<Answer> {
        let mut taken = self.take()?;
        match taken.connection.exchange(call, &self.end_of_answer(wait)) {
            Ok(answer) => {
                self.put_back(taken);
                Ok(answer)
            }
            Err(fault) => {
                self.renew(false);
                Err(fault)
            }
        }
    }

    /// Makes a call that may be repeated, until the patience is over, which begins with the first cut.
    pub(crate) fn exchange_repeated(&self, call: &Call) -> Result<Answer> {
        let mut patience = None;
        loop {
            let made = self.exchange(call);
            match made {
                Err(fault) if fault.is_cut() => {
                    if !patience.get_or_insert_with(|| Deadline::after(self.patience)).pause() {
                        return Err(fault);
                    }
                }
                made => {
                    self.count_repeat(patience.is_some());
                    return made;
                }
            }
        }
    }

    pub(crate) fn count_repeat(&self, is_again: bool) {
        self.repeats.fetch_add(is_again.into(), Ordering::Relaxed);
    }

    // Numbered calls.

    /// Makes a call in the task's mode.
    pub(crate) fn make(&self, call: &Call) -> Result<Answer> {
        match &self.last_request {
            None => self.exchange(call),
            Some(last) if call.may_be_numbered() => self.make_numbered(last, call),
            Some(_) => self.exchange_repeated(call),
        }
    }

    /// Makes a call as a numbered request, which the server answers in the same way if it is repeated.
    fn ask(&self, request: u32, call: &Call) -> Result<Answer> {
        let results = self.exchange_repeated(&call.numbered(request))?.ok()?;
        Answer::of_numbered(call, request, results)
    }

    /// Returns true if a request of this number would be a new one. It asks to destroy name 0: a new request is refused
    /// with `KERN_INVALID_NAME` and keeps no number, and no request that was done has that answer.
    fn is_new(&self, request: u32) -> Result<bool> {
        match self.ask(request, &Call::new(wire::DESTROY, &[0])) {
            Ok(answer) => Ok(answer.code == Error::KernInvalidName.code()),
            Err(Error::KernInvalidValue | Error::KernInvalidArgument) => Ok(false),
            Err(other) => Err(other),
        }
    }

    /// Returns the number that the space used last. `KernInvalidArgument` means that the server has no numbered requests,
    /// or that the space has used all numbers.
    fn find_last_request(&self) -> Result<u32> {
        let last = match self.exchange_repeated(&Call::new(wire::LAST_REQUEST, &[]))?.ok() {
            Ok(results) if results.len() == 8 => wire::word(&results, 0),
            Ok(_) => return Err(Error::MigReplyMismatch),
            Err(Error::KernInvalidArgument) => self.search_last_request()?,
            Err(other) => return Err(other),
        };
        if last >= u32::MAX - 1 {
            return Err(Error::KernInvalidArgument);
        }
        Ok(last)
    }

    /// Returns the same number of a server that can't be asked for it.
    fn search_last_request(&self) -> Result<u32> {
        if !self.is_new(u32::MAX)? {
            return Err(Error::KernInvalidArgument);
        }
        let (mut used, mut unused) = (0, u32::MAX);
        while unused - used > 1 {
            let middle = used + (unused - used) / 2;
            if self.is_new(middle)? {
                unused = middle;
            } else {
                used = middle;
            }
        }
        Ok(used)
    }

    /// Returns the number after which a task's requests begin. One number is skipped, since a program before this one
    /// may have a request with it on its way to the server.
    pub(crate) fn first_number(&self) -> Result<u32> {
        Ok(self.find_last_request()? + 1)
    }

    fn make_numbered(&self, last: &Mutex<u32>, call: &Call) -> Result<Answer> {
        let mut last = lock(last);
        let request = last.checked_add(1).ok_or(Error::KernResourceShortage)?;
        *last = request;
        match self.ask(request, call) {
            Err(Error::KernInvalidValue | Error::KernInvalidArgument) => {
                // Another program numbers its calls in this space. Its requests hide whether this one was made.
                *last = self.first_number()?;
                Err(Error::MachRcvInterrupted(std::io::ErrorKind::AlreadyExists))
            }
            Ok(answer) => {
                // A wait for room or for a message is refused often. Such a refusal keeps no number.
                if Error::from_code(answer.code).is_timeout() {
                    *last = request - 1;
                }
                Ok(answer)
            }
            Err(other) => Err(other),
        }
    }
}
