//! Deadlines, and pauses until them.

use std::thread;
use std::time::{Duration, Instant};

/// The time within which a path has to lead to a server that answers, with all calls that a connection begins with.
pub(crate) const PATH_TIME: Duration = Duration::from_secs(3);

const LONGEST_ANSWER: Duration = Duration::from_secs(10);

/// Returns the time within which the server has to answer a call that doesn't wait, and after which it has to answer one
/// that waits, if there are several paths: a third of the patience, from 3 to 10 seconds. So a wait over a path that is cut
/// leaves a third of the patience for the other paths.
pub(crate) fn answer_time(patience: Option<Duration>) -> Duration {
    patience.map_or(LONGEST_ANSWER, |it| (it / 3).clamp(PATH_TIME, LONGEST_ANSWER))
}

/// Returns the lesser of two times, of which `None` is forever.
pub(crate) fn earlier(one: Option<Duration>, other: Option<Duration>) -> Option<Duration> {
    one.into_iter().chain(other).min()
}

/// Returns the sum of two times, of which `None` is forever.
pub(crate) fn total(one: Option<Duration>, other: Option<Duration>) -> Option<Duration> {
    one?.checked_add(other?)
}

const FIRST_PAUSE: Duration = Duration::from_millis(1);
const LONGEST_PAUSE: Duration = Duration::from_millis(50);

#[derive(Debug)]
pub(crate) struct Deadline {
    /// `None` is never over.
    end: Option<Instant>,
    pause: Duration,
}

impl Deadline {
    /// Returns a deadline after this time. `None`, or more time than the clock can count, means no deadline.
    pub(crate) fn after(time: Option<Duration>) -> Deadline {
        Deadline { end: time.and_then(|it| Instant::now().checked_add(it)), pause: FIRST_PAUSE }
    }

    pub(crate) fn left(&self) -> Option<Duration> {
        self.end.map(|end| end.saturating_duration_since(Instant::now()))
    }

    /// Returns the time that is left, and at least a millisecond, since a socket takes no timeout of zero.
    pub(crate) fn left_for_socket(&self) -> Option<Duration> {
        self.left().map(|it| it.max(Duration::from_millis(1)))
    }

    pub(crate) fn is_over(&self) -> bool {
        self.left() == Some(Duration::ZERO)
    }

    /// Sleeps, each time longer, and returns false if no time was left.
    pub(crate) fn pause(&mut self) -> bool {
        if self.is_over() {
            return false;
        }
        thread::sleep(self.left().map_or(self.pause, |left| left.min(self.pause)));
        self.pause = (2 * self.pause).min(LONGEST_PAUSE);
        true
    }
}

/// Returns a timeout as `mach_msg` has it: whole milliseconds, rounded up.
pub(crate) fn milliseconds(timeout: Option<Duration>) -> u32 {
    let time = timeout.unwrap_or_default();
    let whole = time.as_millis() + u128::from(time.subsec_nanos() % 1_000_000 != 0);
    whole.min(0xffff_fffe) as u32
}
