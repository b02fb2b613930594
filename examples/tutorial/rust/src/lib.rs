//! What the programs of the tutorial share: the ids of requests, names for ports, and how to ask.

use std::thread::sleep;
use std::time::Duration;

use machipc::{kinds, Error, Message, Name, Options, Port, Received, Task};

pub type Failure = Box<dyn std::error::Error>;

// The ids of requests to the name service, and to files. A reply's id is its request's plus 100.
pub const CHECK_IN: i32 = 1001;
pub const LOOK_UP: i32 = 1002;
pub const OPEN: i32 = 2001;
pub const READ: i32 = 2002;
pub const WRITE: i32 = 2003;

pub const PAUSE: Duration = Duration::from_millis(20);

/// Returns a name for a text, always the same for the same text (FNV-1a).
pub fn name_for(text: &str) -> Name {
    let hashed = text.bytes().fold(0x811c_9dc5, |hash: u32, byte| (hash ^ u32::from(byte)).wrapping_mul(0x0100_0193));
    Name(0x4000_0000 | hashed & 0x3fff_ffff)
}

/// Returns the task that machrun made for this program. It waits for a server that is being started again.
pub fn begin() -> Result<Task, Failure> {
    loop {
        match Options::new().once(true).adopt() {
            Err(machipc::AdoptError::Call(fault)) if fault.is_cut() => sleep(PAUSE),
            adopted => return Ok(adopted?),
        }
    }
}

/// The reason why a request has no answer.
#[derive(Debug)]
pub enum Refused {
    /// The request was destroyed without an answer: the service that had it ended.
    Unanswered,
    /// The service refused the request, or the call was refused.
    By(Error),
}

impl From<Error> for Refused {
    fn from(error: Error) -> Refused {
        Refused::By(error)
    }
}

impl std::fmt::Display for Refused {
    fn fmt(&self, f: &mut std::fmt::Formatter<'_>) -> std::fmt::Result {
        write!(f, "{self:?}")
    }
}

impl std::error::Error for Refused {}

/// Asks a service, and gives its answer. A refusal has a code for its only item.
pub fn ask(service: &Port, id: i32, question: Message<'_>) -> Result<Received, Refused> {
    let port = service.task().allocate()?;
    let answer = service.send_receive(question.reply_to(&port), &port, None).map_err(Error::from)?;
    if answer.is_send_once_notice() {
        return Err(Refused::Unanswered);
    }
    if answer.id() != id + 100 {
        return Err(Error::MigReplyMismatch.into());
    }
    let code = match answer.items().next().and_then(|item| item.ok()?.data()) {
        Some(data) if data.kind == kinds::INTEGER_32 => data.words().next().unwrap_or(0),
        _ => 0,
    };
    if code != 0 {
        return Err(Error::from_code(code).into());
    }
    Ok(answer)
}

/// The text of a message's first item.
pub fn text_of(message: &Received) -> machipc::Result<String> {
    let data = message.items().next().and_then(|item| item.ok()?.data()).ok_or(Error::MigBadArguments)?;
    data.text().map(str::to_owned).map_err(|_| Error::MigBadArguments)
}
