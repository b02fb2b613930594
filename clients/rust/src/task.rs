//! Tasks: a space of a server, and the calls that are made there.

use std::collections::BTreeMap;
use std::env;
use std::path::Path;
use std::sync::atomic::{AtomicU64, Ordering};
use std::sync::{Arc, Mutex};
use std::time::Duration;

use crate::connection::Route;
use crate::paths::Paths;
use crate::rights::{Port, PortSet, ReceiveRight};
use crate::shared::{Idle, Shared};
use crate::wire::{self, Call};
use crate::{scm, Disposition, Error, Kind, Name, PortStatus, Request, Result, Type, FIRST_SPACE};

/// The options of a task. [`Task::connect`] and [`Task::adopt`] use the defaults.
///
/// ```
/// # fn main() -> Result<(), machipc::AdoptError> {
/// use std::time::Duration;
///
/// let task = machipc::Options::new().patience(Some(Duration::from_secs(60))).adopt()?;
/// # Ok(())
/// # }
/// ```
#[derive(Clone, Copy, Debug)]
pub struct Options {
    space: u32,
    is_once: bool,
    patience: Option<Duration>,
}

impl Default for Options {
    fn default() -> Options {
        Options { space: FIRST_SPACE, is_once: false, patience: Some(Duration::from_secs(30)) }
    }
}

impl Options {
    /// Returns the defaults: the first space, calls without numbers, and a patience of 30 seconds.
    pub fn new() -> Options {
        Options::default()
    }

    /// Goes to this space. [`Options::adopt`] takes the environment's.
    pub fn space(mut self, space: u32) -> Options {
        self.space = space;
        self
    }

    /// Numbers the calls that change something: each has one effect and one answer however often the connection is cut.
    /// Only one program at a time may do so in a space; if another one does, a call fails with `MachRcvInterrupted` of
    /// `ErrorKind::AlreadyExists`.
    pub fn once(mut self, is_once: bool) -> Options {
        self.is_once = is_once;
        self
    }

    /// Sets the time for which a numbered call is repeated after a cut; `None` is forever. It decides the
    /// [`Task::answer_time`] too.
    pub fn patience(mut self, patience: Option<Duration>) -> Options {
        self.patience = patience;
        self
    }

    /// Connects to the server's socket, as [`Task::connect`] does.
    pub fn connect(self, path: impl AsRef<Path>) -> Result<Task> {
        let paths = Paths::read(path.as_ref())?;
        self.begin(Route::Paths(Arc::new(paths)), Name::NULL, 1)
    }

    /// Enters the task of the environment, as [`Task::adopt`] does.
    pub fn adopt(self) -> std::result::Result<Task, AdoptError> {
        let route = match env::var_os("MACHIPC_FD") {
            Some(_) => {
                let descriptor = number("MACHIPC_FD")?.try_into().ok().and_then(scm::packet_socket);
                Route::Broker {
                    descriptor: descriptor.ok_or(AdoptError::Environment("MACHIPC_FD"))?,
                    has_others: number_or_1("MACHIPC_PATHS")? > 1,
                }
            }
            None => {
                let list = env::var_os("MACHIPC_SOCKET").unwrap_or_default();
                let paths = Paths::read(Path::new(&list)).map_err(|_| AdoptError::Environment("MACHIPC_SOCKET"))?;
                Route::Paths(Arc::new(paths))
            }
        };
        let space = number("MACHIPC_SPACE")?;
        let bootstrap = Name(number("MACHIPC_BOOTSTRAP")?);
        let start = number_or_1("MACHIPC_START")?;
        self.space(space).begin(route, bootstrap, start).map_err(AdoptError::Call)
    }

    fn begin(self, route: Route, bootstrap: Name, start: u32) -> Result<Task> {
        let is_confined = matches!(route, Route::Broker { .. });
        let mut shared = Shared {
            route,
            space: self.space,
            bootstrap,
            start,
            patience: self.patience,
            repeats: AtomicU64::new(0),
            last_request: None,
            idle: Idle::new(is_confined),
        };
        if self.is_once {
            shared.last_request = Some(Mutex::new(shared.first_number()?));
        } else {
            shared.put_back(shared.take()?);
        }
        Ok(Task { shared: Arc::new(shared) })
    }
}

/// Reads a number of the environment, in decimal, or in hexadecimal after `0x`.
fn number(variable: &'static str) -> std::result::Result<u32, AdoptError> {
    let text = env::var(variable).map_err(|_| AdoptError::Environment(variable))?;
    let parsed = match text.strip_prefix("0x") {
        Some(digits) => u32::from_str_radix(digits, 16),
        None => text.parse(),
    };
    parsed.map_err(|_| AdoptError::Environment(variable))
}

fn number_or_1(variable: &'static str) -> std::result::Result<u32, AdoptError> {
    env::var_os(variable).map_or(Ok(1), |_| number(variable))
}

/// No task could be adopted.
#[derive(Clone, Debug, PartialEq, Eq)]
pub enum AdoptError {
    /// This variable of the environment is missing, or holds something else.
    Environment(&'static str),
    /// The server, or `machrun`, refused the connection.
    Call(Error),
}

impl std::fmt::Display for AdoptError {
    fn fmt(&self, f: &mut std::fmt::Formatter<'_>) -> std::fmt::Result {
        match self {
            AdoptError::Environment(variable) => write!(f, "{variable} of the environment is missing or invalid"),
            AdoptError::Call(error) => error.fmt(f),
        }
    }
}

impl std::error::Error for AdoptError {}

impl From<Error> for AdoptError {
    fn from(error: Error) -> AdoptError {
        AdoptError::Call(error)
    }
}

/// A space of a server, for the calls of this program.
///
/// A clone is the same task, and may go to another thread. Each call takes a connection of its own while it lasts, so a
/// thread that waits for a message holds up no other. A cut connection fails the call with an error that
/// [`Error::is_cut`] knows, and the next call connects anew; with [`Options::once`] it is asked again.
///
/// The calls by [`Name`] are Mach's own, with their names and refusals. The types for rights call them too, and give
/// back what they hold when they are dropped.
#[derive(Clone, Debug)]
pub struct Task {
    pub(crate) shared: Arc<Shared>,
}

impl Task {
    /// Connects to the server's socket, in the first space.
    ///
    /// A list of up to four paths, `PATH1:PATH2`, leads to the first server that answers, within three seconds for each
    /// path (one path alone has as long as the patience); in a path a `:` is written `\:`, and a backslash `\\`. `KernInvalidArgument`: it is no list.
    pub fn connect(path: impl AsRef<Path>) -> Result<Task> {
        Options::new().connect(path)
    }

    /// Enters the task that `machrun` made for this program, as the environment names it.
    ///
    /// If the environment has `MACHIPC_FD`, all connections come from `machrun` and are confined to the task's space.
    pub fn adopt() -> std::result::Result<Task, AdoptError> {
        Options::new().adopt()
    }

    /// Returns another task in another space, with the same options. `KernInvalidTask`: no such space; `KernNoAccess`:
    /// this task is confined to its own.
    pub fn in_space(&self, space: u32) -> Result<Task> {
        let options = Options { space, is_once: self.is_once(), patience: self.shared.patience };
        match &self.shared.route {
            Route::Paths(paths) if !self.shared.is_confined() => {
                options.begin(Route::Paths(paths.clone()), Name::NULL, 1)
            }
            _ => Err(Error::KernNoAccess),
        }
    }

    /// Returns the number of the space.
    pub fn space(&self) -> u32 {
        self.shared.space
    }

    /// Returns the first right that the task was given, if it was adopted. The right stays when the value is dropped.
    pub fn bootstrap(&self) -> Port {
        self.port(self.shared.bootstrap)
    }

    /// Returns the number of the adopted task's start, from 1.
    pub fn start(&self) -> u32 {
        self.shared.start
    }

    /// Returns true if the task numbers its calls ([`Options::once`]).
    pub fn is_once(&self) -> bool {
        self.shared.last_request.is_some()
    }

    /// Returns the time for which a numbered call is repeated after a cut; `None` is forever.
    pub fn patience(&self) -> Option<Duration> {
        self.shared.patience
    }

    /// Returns the time within which the server has to answer a call that doesn't wait, and after which it has to answer one
    /// that waits. With several paths it is a third of the patience, from 3 to 10 seconds. A later answer counts as a cut, and
    /// the call fails as [`Error::is_cut`] knows: over a path that is cut no answer comes. With one path it is `None`, and a
    /// call waits until it is answered.
    pub fn answer_time(&self) -> Option<Duration> {
        self.shared.answer_time()
    }

    /// Returns the number of calls that were repeated after a cut and then answered.
    pub fn repeats(&self) -> u64 {
        self.shared.repeats.load(Ordering::Relaxed)
    }

    /// Confines the task to its space, for good: the server refuses its connections every other space.
    pub fn confine(&self) -> Result<()> {
        self.done(wire::CONFINE, &[])?;
        self.shared.renew(true);
        Ok(())
    }

    /// Returns true if both are in the same space of the same server.
    pub(crate) fn is_in_space_of(&self, other: &Task) -> bool {
        self.shared.space == other.shared.space && self.shared.route == other.shared.route
    }

    // Making calls of words.

    fn results(&self, number: u32, arguments: &[u32]) -> Result<Vec<u32>> {
        let results = self.shared.make(&Call::new(number, arguments))?.ok()?;
        if results.len() % 4 != 0 {
            return Err(Error::MigReplyMismatch);
        }
        Ok(wire::words(&results))
    }

    /// Makes a call that has so many results.
    fn words<const COUNT: usize>(&self, number: u32, arguments: &[u32]) -> Result<[u32; COUNT]> {
        self.results(number, arguments)?.try_into().map_err(|_| Error::MigReplyMismatch)
    }

    fn done(&self, number: u32, arguments: &[u32]) -> Result<()> {
        self.words::<0>(number, arguments).map(drop)
    }

    /// Makes a call that is answered with a count and that many rows.
    fn rows(&self, number: u32, arguments: &[u32], width: usize) -> Result<Vec<u32>> {
        let mut results = self.results(number, arguments)?;
        let is_whole = !results.is_empty() && results.len() - 1 == results[0] as usize * width;
        if !is_whole {
            return Err(Error::MigReplyMismatch);
        }
        results.remove(0);
        Ok(results)
    }

    // Making names, and what they are.

    /// Makes a port, and returns its receive right.
    pub fn allocate(&self) -> Result<ReceiveRight> {
        let [name] = self.words(wire::ALLOCATE, &[Kind::Receive as u32])?;
        Ok(ReceiveRight::from_name(self, Name(name)))
    }

    /// Makes an empty set of ports.
    pub fn allocate_set(&self) -> Result<PortSet> {
        let [name] = self.words(wire::ALLOCATE, &[Kind::PortSet as u32])?;
        Ok(PortSet::from_name(self, Name(name)))
    }

    /// Makes a receive right, a set or a dead name under a name of the caller's choice (`mach_port_allocate_name`).
    pub fn allocate_name(&self, kind: Kind, name: Name) -> Result<()> {
        self.done(wire::ALLOCATE_NAME, &[kind as u32, name.0])
    }

    /// Returns a name of the space, with the calls on it. It owns nothing: the rights of the name stay when it is
    /// dropped.
    pub fn port(&self, name: Name) -> Port {
        Port::new(self.clone(), name)
    }

    /// Returns all names of the space, with their rights (`mach_port_names`).
    pub fn names(&self) -> Result<BTreeMap<Name, Type>> {
        let rows = self.rows(wire::NAMES, &[], 2)?;
        Ok(rows.chunks_exact(2).map(|row| (Name(row[0]), Type(row[1]))).collect())
    }

    /// Returns the kinds of rights that a name holds (`mach_port_type`).
    pub fn type_of(&self, name: Name) -> Result<Type> {
        self.words(wire::TYPE, &[name.0]).map(|[bits]| Type(bits))
    }

    /// Moves the rights of a name to another name (`mach_port_rename`).
    pub fn rename(&self, old: Name, new: Name) -> Result<()> {
        self.done(wire::RENAME, &[old.0, new.0])
    }

    /// Gives all rights of a name back (`mach_port_destroy`).
    pub fn destroy(&self, name: Name) -> Result<()> {
        self.done(wire::DESTROY, &[name.0])
    }

    /// Gives back one reference of a send right or a dead name, or a send-once right (`mach_port_deallocate`).
    pub fn deallocate(&self, name: Name) -> Result<()> {
        self.done(wire::DEALLOCATE, &[name.0])
    }

    /// Destroys all names of the space but these, so that nobody waits for a task that ran there before.
    pub fn sweep(&self, keep: &[Name]) -> Result<()> {
        for name in self.names()?.into_keys().filter(|name| !keep.contains(name)) {
            match self.destroy(name) {
                Ok(()) | Err(Error::KernInvalidName) => {}
                Err(other) => return Err(other),
            }
        }
        Ok(())
    }

    // References and rights.

    /// Returns the references that a name has of a right (`mach_port_get_refs`).
    pub fn get_refs(&self, name: Name, kind: Kind) -> Result<u32> {
        self.words(wire::GET_REFS, &[name.0, kind as u32]).map(|[count]| count)
    }

    /// Adds to the references that a name has of a right (`mach_port_mod_refs`).
    pub fn mod_refs(&self, name: Name, kind: Kind, delta: i32) -> Result<()> {
        self.done(wire::MOD_REFS, &[name.0, kind as u32, delta as u32])
    }

    /// Takes a right from a name and puts it under another one in the same space (`mach_port_insert_right`).
    pub fn insert_right(&self, name: Name, right: Name, disposition: Disposition) -> Result<()> {
        self.done(wire::INSERT_RIGHT, &[name.0, right.0, disposition as u32])
    }

    /// Takes a right from a name, and puts it under a name that the server chooses (`mach_port_extract_right`).
    pub fn extract_right(&self, name: Name, disposition: Disposition) -> Result<Name> {
        self.words(wire::EXTRACT_RIGHT, &[name.0, disposition as u32]).map(|[name, _]| Name(name))
    }

    // Ports and sets.

    /// Returns the state of a receive right's port (`mach_port_get_receive_status`).
    pub fn receive_status(&self, name: Name) -> Result<PortStatus> {
        let found: [u32; 9] = self.words(wire::GET_RECEIVE_STATUS, &[name.0])?;
        Ok(PortStatus {
            set: Name(found[0]),
            seqno: found[1],
            make_send_count: found[2],
            queue_limit: found[3],
            messages: found[4],
            send_once_rights: found[5],
            has_senders: found[6] != 0,
            has_port_destroyed_request: found[7] != 0,
            has_no_senders_request: found[8] != 0,
        })
    }

    /// Sets how many messages the queue takes (`mach_port_set_qlimit`).
    pub fn set_queue_limit(&self, name: Name, limit: u32) -> Result<()> {
        self.done(wire::SET_QLIMIT, &[name.0, limit])
    }

    /// Sets the make-send count (`mach_port_set_mscount`).
    pub fn set_make_send_count(&self, name: Name, count: u32) -> Result<()> {
        self.done(wire::SET_MSCOUNT, &[name.0, count])
    }

    /// Sets the number of the next message (`mach_port_set_seqno`).
    pub fn set_seqno(&self, name: Name, seqno: u32) -> Result<()> {
        self.done(wire::SET_SEQNO, &[name.0, seqno])
    }

    /// Returns the members of a set (`mach_port_get_set_status`).
    pub fn set_status(&self, name: Name) -> Result<Vec<Name>> {
        Ok(self.rows(wire::GET_SET_STATUS, &[name.0], 1)?.into_iter().map(Name).collect())
    }

    /// Puts a port into a set, or with [`Name::NULL`] out of its set (`mach_port_move_member`).
    pub fn move_member(&self, member: Name, set: Name) -> Result<()> {
        self.done(wire::MOVE_MEMBER, &[member.0, set.0])
    }

    /// Asks for a notice by the right `notify`, and returns the send-once right of the request before, or
    /// [`Name::NULL`] (`mach_port_request_notification`).
    pub fn request_notification(
        &self,
        name: Name,
        about: Request,
        sync: u32,
        notify: Name,
        disposition: Disposition,
    ) -> Result<Name> {
        let arguments = [name.0, about as u32, sync, notify.0, disposition as u32];
        self.words(wire::REQUEST_NOTIFICATION, &arguments).map(|[previous]| Name(previous))
    }

    // Spaces.

    /// Makes a space that holds one right, and returns its number and the right's name there. The caller stays where it
    /// is.
    pub fn space_create(&self, name: Name, disposition: Disposition) -> Result<(u32, Name)> {
        self.words(wire::SPACE_CREATE, &[name.0, disposition as u32]).map(|[space, name]| (space, Name(name)))
    }

    /// Gives all rights of the space back and removes it. Every later call there is refused with `KernInvalidTask`.
    ///
    /// With [`Options::once`] it is made once too. The end of a space can't be a numbered request, since the space
    /// keeps the numbers, so a name that is chosen at random marks the space first. If that name is missing after a
    /// cut, the space was destroyed.
    pub fn space_destroy(&self) -> Result<()> {
        let mark = match self.shared.last_request {
            Some(_) if self.space() != FIRST_SPACE => self.mark()?,
            _ => None,
        };
        loop {
            let ended = self.shared.exchange(&Call::new(wire::SPACE_DESTROY, &[])).and_then(|it| it.ok());
            match (ended, mark) {
                (Err(fault), Some(mark)) if fault.is_cut() => match self.type_of(mark) {
                    Ok(_) => {}
                    Err(Error::KernInvalidName | Error::KernInvalidTask) => return Ok(()),
                    Err(other) => return Err(other),
                },
                (ended, _) => return ended.map(drop),
            }
        }
    }

    /// Puts a dead name that is chosen at random into the space. Returns it, or `None` if the space has no name left.
    fn mark(&self) -> Result<Option<Name>> {
        let mark = Name(chance_name());
        let call = Call::new(wire::ALLOCATE_NAME, &[Kind::DeadName as u32, mark.0]);
        match self.shared.exchange_repeated(&call).and_then(|it| it.ok()) {
            Ok(_) | Err(Error::KernNameExists) => Ok(Some(mark)),
            Err(Error::KernNoSpace) => Ok(None),
            Err(other) => Err(other),
        }
    }
}

/// Returns a name above those that the server chooses, from the random seed of the standard library's tables.
fn chance_name() -> u32 {
    use std::collections::hash_map::RandomState;
    use std::hash::{BuildHasher, Hasher};
    0x8000_0000 | (RandomState::new().build_hasher().finish() % 0x7fff_ffff) as u32
}
