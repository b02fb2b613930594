//! The paths of a server's sockets, as users write them: `PATH1:PATH2`.

use std::ffi::OsString;
use std::io;
use std::os::unix::ffi::{OsStrExt, OsStringExt};
use std::os::unix::net::UnixStream;
use std::path::{Path, PathBuf};
use std::sync::atomic::{AtomicUsize, Ordering};
use std::sync::mpsc::{self, Receiver};
use std::sync::Mutex;
use std::thread;
use std::time::Duration;

use crate::connection::Connection;
use crate::deadline::{Deadline, PATH_TIME};
use crate::shared::lock;
use crate::{Error, Result};

/// The most paths of a list, and the most bytes of a socket's path.
const MOST: usize = 4;
const LONGEST: usize = 107;

/// A list of paths.
#[derive(Debug)]
pub(crate) struct Paths {
    each: Vec<Entrance>,
    /// The place of the path that answered last, which is tried first.
    last: AtomicUsize,
}

impl PartialEq for Paths {
    fn eq(&self, other: &Paths) -> bool {
        self.each.iter().map(|it| &it.path).eq(other.each.iter().map(|it| &it.path))
    }
}

impl Paths {
    /// Reads a list. In a path a `:` is written `\:`, and a backslash `\\`. `KernInvalidArgument`: it isn't a list, or has
    /// too many paths, or one that is empty or too long for a socket.
    pub(crate) fn read(list: &Path) -> Result<Paths> {
        let mut each = vec![Vec::new()];
        let mut bytes = list.as_os_str().as_bytes().iter();
        while let Some(&byte) = bytes.next() {
            let path = each.last_mut().expect("there is a path at first");
            match byte {
                b':' => each.push(Vec::new()),
                b'\\' => match bytes.next() {
                    Some(&escaped @ (b':' | b'\\')) => path.push(escaped),
                    _ => return Err(Error::KernInvalidArgument),
                },
                _ => path.push(byte),
            }
        }
        if each.len() > MOST || !each.iter().all(|it| (1..=LONGEST).contains(&it.len())) {
            return Err(Error::KernInvalidArgument);
        }
        let each = each.into_iter().map(|it| Entrance::new(OsString::from_vec(it).into())).collect();
        Ok(Paths { each, last: AtomicUsize::new(0) })
    }

    /// Returns true if there is another path where one is cut.
    pub(crate) fn has_others(&self) -> bool {
        self.each.len() > 1
    }

    /// Opens a connection by the first path that leads to a server. The server has to answer: a proxy accepts for a server
    /// that is gone. If there is one path, it has as much time as the patience.
    pub(crate) fn open(&self, space: u32, is_confined: bool, patience: Option<Duration>) -> Result<Connection> {
        let time = if self.has_others() { Some(PATH_TIME) } else { patience.map(|it| it.max(PATH_TIME)) };
        let last = self.last.load(Ordering::Relaxed);
        let mut opened = Err(Error::KernInvalidArgument);
        for place in (last..self.each.len()).chain(0..last) {
            opened = self.each[place].open(space, is_confined, time);
            if !matches!(opened, Err(Error::MachSendInterrupted(_))) {
                self.last.store(place, Ordering::Relaxed);
                break;
            }
        }
        opened
    }
}

/// A path, with an attempt to connect there that has not ended: the standard library connects without a timeout, and waits
/// where a server has accepted none for a while.
#[derive(Debug)]
struct Entrance {
    path: PathBuf,
    pending: Mutex<Option<Receiver<io::Result<UnixStream>>>>,
}

impl Entrance {
    fn new(path: PathBuf) -> Entrance {
        Entrance { path, pending: Mutex::new(None) }
    }

    fn open(&self, space: u32, is_confined: bool, time: Option<Duration>) -> Result<Connection> {
        let end = Deadline::after(time);
        let stream = self.connect(time).map_err(|fault| Error::MachSendInterrupted(fault.kind()))?;
        let mut connection = Connection::new(stream);
        connection.attach_until(space, &end)?;
        if is_confined {
            connection.confine_until(&end)?;
        }
        Ok(connection)
    }

    fn connect(&self, time: Option<Duration>) -> io::Result<UnixStream> {
        let pending = match lock(&self.pending).take() {
            Some(pending) => pending,
            None => self.begin()?,
        };
        pending.recv_timeout(time.unwrap_or(Duration::MAX)).unwrap_or_else(|_| {
            *lock(&self.pending) = Some(pending);
            Err(io::ErrorKind::TimedOut.into())
        })
    }

    fn begin(&self) -> io::Result<Receiver<io::Result<UnixStream>>> {
        let (sender, receiver) = mpsc::channel();
        let path = self.path.clone();
        thread::Builder::new().spawn(move || sender.send(UnixStream::connect(path)))?;
        Ok(receiver)
    }
}

#[cfg(test)]
mod tests {
    use super::*;

    fn read(list: &str) -> Result<Vec<PathBuf>> {
        Paths::read(Path::new(list)).map(|it| it.each.into_iter().map(|it| it.path).collect())
    }

    #[test]
    fn lists() {
        assert_eq!(read("/a"), Ok(vec!["/a".into()]));
        assert_eq!(read(r"/a\:b\\:c:/d"), Ok(vec![r"/a:b\".into(), "c".into(), "/d".into()]));
        for list in ["", ":", "/a:", "/a::/b", r"/a\x", r"/a\", "1:2:3:4:5", &"a".repeat(108)] {
            assert_eq!(read(list), Err(Error::KernInvalidArgument), "{list}");
        }
    }

    #[test]
    fn nothing_listens() {
        let opened = Paths::read(Path::new("/nowhere:/nor/here")).unwrap().open(1, false, None);
        assert!(matches!(opened, Err(Error::MachSendInterrupted(io::ErrorKind::NotFound))));
    }
}
