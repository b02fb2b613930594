//! files FOLDER: a service of files. To open a file is to get a right to a port that reads and writes it.
//!
//! The ports outlive this program: if it is killed and started again in its space, the rights that clients have lead to
//! the same files. The name of a file's port is computed from the file's name, so the folder is all that the service
//! has to know.

use std::fs;
use std::path::{Path, PathBuf};

use machipc::{Error, Kind, Message, Name, ReceiveRight, Received, Result, Server, Task};
use tutorial::{ask, begin, name_for, text_of, Failure, CHECK_IN, OPEN, READ, WRITE};

const SERVICE: Name = Name(0x3fff_fff0);
const ALL: Name = Name(0x3fff_fff1);

struct Files {
    task: Task,
    folder: PathBuf,
}

fn name_of(file: &Path) -> String {
    file.file_name().map_or_else(String::new, |name| name.to_string_lossy().into_owned())
}

impl Files {
    /// Makes a port or a set with this name, unless it exists.
    fn make(&self, kind: Kind, name: Name) -> Result<()> {
        match self.task.allocate_name(kind, name) {
            Err(Error::KernNameExists) => Ok(()),
            made => made,
        }
    }

    fn all(&self) -> Result<Vec<PathBuf>> {
        let entries = fs::read_dir(&self.folder).map_err(|_| Error::KernFailure)?;
        Ok(entries.flatten().map(|entry| entry.path()).collect())
    }

    /// Returns the port of a file. It is a member of the set from which this program receives.
    fn port_of(&self, file: &Path) -> Result<Name> {
        let port = name_for(&name_of(file));
        self.make(Kind::Receive, port)?;
        self.task.move_member(port, ALL)?;
        Ok(port)
    }

    /// Returns the file that belongs to a port.
    fn file_at(&self, port: Name) -> Result<PathBuf> {
        self.all()?.into_iter().find(|file| name_for(&name_of(file)) == port).ok_or(Error::KernInvalidName)
    }

    fn begin(&self) -> Result<()> {
        self.make(Kind::PortSet, ALL)?;
        self.make(Kind::Receive, SERVICE)?;
        self.task.move_member(SERVICE, ALL)?;
        let mut keep = vec![self.task.bootstrap().name(), ALL, SERVICE];
        for file in self.all()? {
            keep.push(self.port_of(&file)?);
        }
        self.task.sweep(&keep)
    }

    fn open(&self, request: &Received) -> Result<Message<'static>> {
        if request.port() != SERVICE {
            return Err(Error::KernNoAccess); // a right to one file opens no others
        }
        let text = text_of(request)?;
        if text.is_empty() || !text.bytes().all(|byte| byte.is_ascii_alphanumeric()) {
            return Err(Error::KernInvalidValue);
        }
        let file = self.folder.join(text);
        fs::OpenOptions::new().append(true).create(true).open(&file).map_err(|_| Error::KernFailure)?;
        let port = ReceiveRight::from_name(&self.task, self.port_of(&file)?);
        let right = port.make_send();
        port.forget();
        Ok(Message::new(OPEN + 100).send_right(right?))
    }

    fn read(&self, request: &Received) -> Result<Message<'static>> {
        let text = fs::read(self.file_at(request.port())?).map_err(|_| Error::KernFailure)?;
        Ok(Message::new(READ + 100).bytes(&text))
    }

    /// Replaces a file's text. The file is the old one or the new one, whatever is killed.
    fn write(&self, request: &Received) -> Result<Message<'static>> {
        let (file, new) = (self.file_at(request.port())?, self.folder.with_extension("new"));
        let written = fs::write(&new, text_of(request)?).and_then(|()| fs::rename(&new, file));
        written.map_err(|_| Error::KernFailure)?;
        Ok(Message::new(WRITE + 100).words(&[0]))
    }
}

fn main() -> std::result::Result<(), Failure> {
    let folder = std::env::args().nth(1).ok_or("files FOLDER")?.into();
    let files = Files { task: begin()?, folder };
    files.begin()?;
    let service = ReceiveRight::from_name(&files.task, SERVICE);
    let me = Message::new(CHECK_IN).text("files").make_send(&service);
    ask(&files.task.bootstrap(), CHECK_IN, me)?;
    service.forget();
    println!("files {}", std::process::id());
    let mut server = Server::new();
    server.on(OPEN, |request| Ok(Some(files.open(request)?)));
    server.on(READ, |request| Ok(Some(files.read(request)?)));
    server.on(WRITE, |request| Ok(Some(files.write(request)?)));
    Ok(server.run(&files.task.port(ALL), None)?)
}
