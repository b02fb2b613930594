//! Connections, and where they come from.

use std::fmt;
use std::io::{self, Write};
use std::os::unix::io::OwnedFd;
use std::os::unix::net::{UnixDatagram, UnixStream};
use std::path::Path;
use std::sync::Arc;
use std::time::Duration;

use crate::deadline::Deadline;
use crate::paths::Paths;
use crate::wire::{self, Answer, Call};
use crate::{scm, Error, Result};

/// The longest wait for an answer of `machrun`.
const BROKER_PATIENCE: Duration = Duration::from_secs(20);
/// The answer of `machrun` while it has no connection to give.
const LATER: u8 = 255;

/// A way to a server.
pub(crate) enum Route {
    /// The paths of the server's sockets.
    Paths(Arc<Paths>),
    /// The descriptor by which `machrun` gives connections, which are attached and confined.
    Broker { descriptor: OwnedFd, has_others: bool },
}

/// The patience of a connection that belongs to no task.
const PATIENCE: Duration = Duration::from_secs(30);

impl fmt::Debug for Route {
    fn fmt(&self, f: &mut fmt::Formatter<'_>) -> fmt::Result {
        match self {
            Route::Paths(paths) => paths.fmt(f),
            Route::Broker { .. } => f.write_str("machrun"),
        }
    }
}

impl PartialEq for Route {
    /// A process has one `machrun`.
    fn eq(&self, other: &Route) -> bool {
        match (self, other) {
            (Route::Paths(one), Route::Paths(other)) => one == other,
            (one, other) => matches!((one, other), (Route::Broker { .. }, Route::Broker { .. })),
        }
    }
}

impl Route {
    /// Opens a connection in a space, for good if it is confined there.
    pub(crate) fn open(&self, space: u32, is_confined: bool, patience: Option<Duration>) -> Result<Connection> {
        match self {
            Route::Paths(paths) => paths.open(space, is_confined, patience),
            Route::Broker { descriptor, .. } => ask_broker(descriptor),
        }
    }

    /// Returns true if there is another path where one is cut.
    pub(crate) fn has_others(&self) -> bool {
        match self {
            Route::Paths(paths) => paths.has_others(),
            Route::Broker { has_others, .. } => *has_others,
        }
    }
}

/// Asks `machrun` for a connection, which comes to a pair of this call's own.
fn ask_broker(broker: &OwnedFd) -> Result<Connection> {
    let cut = |fault: io::Error| Error::MachSendInterrupted(fault.kind());
    let mut patience = Deadline::after(Some(BROKER_PATIENCE));
    let (own, sent) = scm::packet_pair().map_err(cut)?;
    while let Err(fault) = scm::send_descriptor(broker, &sent) {
        if !is_passing(&fault) || !patience.pause() {
            return Err(cut(fault));
        }
    }
    drop(sent);
    let own = UnixDatagram::from(own);
    own.set_read_timeout(patience.left().filter(|left| !left.is_zero())).map_err(cut)?;
    loop {
        match scm::receive_descriptor(&own) {
            Ok(Some((_, Some(given)))) => return Ok(Connection::new(UnixStream::from(given))),
            Ok(None | Some((0 | LATER, None))) => {
                return Err(Error::MachSendInterrupted(io::ErrorKind::ConnectionRefused))
            }
            Ok(Some((code, None))) => return Err(Error::from_code(code.into())),
            Err(fault) if fault.kind() == io::ErrorKind::Interrupted => {}
            Err(fault) => return Err(cut(fault)),
        }
    }
}

/// Returns true if there may be room in the broker's queue in a moment.
fn is_passing(fault: &io::Error) -> bool {
    const ETOOMANYREFS: i32 = 109;
    const ENOBUFS: i32 = 105;
    let kind = fault.kind();
    kind == io::ErrorKind::WouldBlock
        || kind == io::ErrorKind::Interrupted
        || matches!(fault.raw_os_error(), Some(ETOOMANYREFS | ENOBUFS))
}

/// A connection to a server, for one call at a time.
///
/// A [`Task`](crate::Task) opens and keeps its connections itself. One of its own is for a program that hands it to
/// another process: it is attached, confined, and given away by [`Connection::into_stream`].
///
/// ```no_run
/// # fn main() -> machipc::Result<()> {
/// let mut connection = machipc::Connection::open("/run/machipcd/socket")?;
/// connection.attach(2)?;
/// connection.confine()?;
/// let stream = connection.into_stream();
/// # Ok(())
/// # }
/// ```
#[derive(Debug)]
pub struct Connection {
    stream: UnixStream,
}

impl Connection {
    /// Connects to the server's socket, or by the first path of a list ([`Task::connect`](crate::Task::connect)) that leads
    /// to a server. The connection is in the first space.
    pub fn open(path: impl AsRef<Path>) -> Result<Connection> {
        Paths::read(path.as_ref())?.open(crate::FIRST_SPACE, false, Some(PATIENCE))
    }

    pub(crate) fn new(stream: UnixStream) -> Connection {
        Connection { stream }
    }

    /// Takes the connection to another space. `KernInvalidTask`: no such space; `KernNoAccess`: it is confined.
    pub fn attach(&mut self, space: u32) -> Result<()> {
        self.attach_until(space, &Deadline::after(Some(PATIENCE)))
    }

    /// Confines the connection to its space, for good.
    pub fn confine(&mut self) -> Result<()> {
        self.confine_until(&Deadline::after(Some(PATIENCE)))
    }

    pub(crate) fn attach_until(&mut self, space: u32, end: &Deadline) -> Result<()> {
        self.enter(&Call::new(wire::ATTACH, &[space]), end)
    }

    pub(crate) fn confine_until(&mut self, end: &Deadline) -> Result<()> {
        self.enter(&Call::new(wire::CONFINE, &[]), end)
    }

    /// Returns the socket, without timeouts. Its frames are those of the server's FORMATS page.
    pub fn into_stream(self) -> UnixStream {
        let _ = self.stream.set_read_timeout(None);
        let _ = self.stream.set_write_timeout(None);
        self.stream
    }

    pub(crate) fn stream(&self) -> &UnixStream {
        &self.stream
    }

    /// Makes a call without results. A connection that is cut by it can't be used any more.
    fn enter(&mut self, call: &Call, end: &Deadline) -> Result<()> {
        self.exchange(call, end).map_err(Error::of_send)?.ok().map(drop)
    }

    /// Makes a call, once. After an error the connection can't be used any more.
    pub(crate) fn exchange(&mut self, call: &Call, end: &Deadline) -> Result<Answer> {
        self.write(call, end)?;
        self.read(call, end)
    }

    /// Writes a call.
    pub(crate) fn write(&mut self, call: &Call, end: &Deadline) -> Result<()> {
        let written =
            self.stream.set_write_timeout(end.left_for_socket()).and_then(|()| self.stream.write_all(call.frame()));
        written.map_err(|fault| Error::MachSendInterrupted(fault.kind()))
    }

    /// Reads the answer to a call that was written. A later answer counts as a cut.
    pub(crate) fn read(&mut self, call: &Call, end: &Deadline) -> Result<Answer> {
        let reply = wire::read_frame(&self.stream, end).map_err(|fault| Error::MachRcvInterrupted(fault.kind()))?;
        Answer::of(call, reply)
    }
}
