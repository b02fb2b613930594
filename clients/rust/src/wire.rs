//! Frames, as the socket carries them: a length, the number of a call, and words or bytes. All numbers have their lowest
//! byte first.

use std::io::{self, Read};
use std::os::unix::net::UnixStream;
use std::time::Duration;

use crate::deadline::Deadline;
use crate::{Error, Result};

pub(crate) const ATTACH: u32 = 0;
pub(crate) const NAMES: u32 = 1;
pub(crate) const TYPE: u32 = 2;
pub(crate) const RENAME: u32 = 3;
pub(crate) const ALLOCATE_NAME: u32 = 4;
pub(crate) const ALLOCATE: u32 = 5;
pub(crate) const DESTROY: u32 = 6;
pub(crate) const DEALLOCATE: u32 = 7;
pub(crate) const GET_REFS: u32 = 8;
pub(crate) const MOD_REFS: u32 = 9;
pub(crate) const SET_QLIMIT: u32 = 10;
pub(crate) const SET_MSCOUNT: u32 = 11;
pub(crate) const SET_SEQNO: u32 = 12;
pub(crate) const GET_RECEIVE_STATUS: u32 = 13;
pub(crate) const GET_SET_STATUS: u32 = 14;
pub(crate) const MOVE_MEMBER: u32 = 15;
pub(crate) const REQUEST_NOTIFICATION: u32 = 16;
pub(crate) const INSERT_RIGHT: u32 = 17;
pub(crate) const EXTRACT_RIGHT: u32 = 18;
pub(crate) const MACH_MSG: u32 = 19;
pub(crate) const SPACE_CREATE: u32 = 20;
pub(crate) const SPACE_DESTROY: u32 = 21;
pub(crate) const NUMBERED: u32 = 22;
pub(crate) const CONFINE: u32 = 23;
pub(crate) const LAST_REQUEST: u32 = 24;

pub(crate) const SEND_MSG: u32 = 1;
pub(crate) const RCV_MSG: u32 = 2;
pub(crate) const SEND_TIMEOUT: u32 = 0x10;
pub(crate) const RCV_TIMEOUT: u32 = 0x100;
pub(crate) const RCV_LARGE: u32 = 0x800;

/// Returns the options of a timeout of both halves.
pub(crate) fn timeouts(timeout: Option<Duration>) -> u32 {
    timeout.map_or(0, |_| SEND_TIMEOUT | RCV_TIMEOUT)
}

/// The most bytes of a frame after its length.
const LONGEST: usize = 65_532;

/// A call: its number and its arguments, as a frame.
#[derive(Clone, Debug)]
pub(crate) struct Call {
    frame: Vec<u8>,
}

impl Call {
    /// Returns a call whose arguments are words.
    pub(crate) fn new(number: u32, arguments: &[u32]) -> Call {
        let mut frame = vec![0; 4];
        for word in std::iter::once(&number).chain(arguments) {
            frame.extend_from_slice(&word.to_le_bytes());
        }
        Call { frame }.measured()
    }

    /// Returns a call of `mach_msg` with the message's bytes, which only a send has.
    pub(crate) fn mach_msg(option: u32, limit: u32, name: u32, timeout: u32, message: &[u8]) -> Call {
        let mut call = Call::new(MACH_MSG, &[option, limit, name, timeout]);
        call.frame.extend_from_slice(message);
        call.measured()
    }

    /// Returns this call as a numbered request.
    pub(crate) fn numbered(&self, request: u32) -> Call {
        let mut call = Call::new(NUMBERED, &[request]);
        call.frame.extend_from_slice(&self.frame[4..]);
        call.measured()
    }

    /// Writes the length.
    fn measured(mut self) -> Call {
        let length = (self.frame.len() - 4) as u32;
        self.frame[..4].copy_from_slice(&length.to_le_bytes());
        self
    }

    pub(crate) fn number(&self) -> u32 {
        word(&self.frame, 4)
    }

    pub(crate) fn frame(&self) -> &[u8] {
        &self.frame
    }

    /// Returns true if the server makes such a call under a number: it changes something, and keeps its space.
    pub(crate) fn may_be_numbered(&self) -> bool {
        matches!(self.number(), 3..=7 | 9..=12 | 15..=20)
    }
}

/// The answer to a call.
#[derive(Debug)]
pub(crate) struct Answer {
    pub(crate) code: u32,
    pub(crate) results: Vec<u8>,
}

impl Answer {
    /// Reads the reply to a call.
    pub(crate) fn of(call: &Call, mut reply: Vec<u8>) -> Result<Answer> {
        if reply.len() < 8 || word(&reply, 0) != call.number() {
            return Err(Error::MigReplyMismatch);
        }
        let code = word(&reply, 4);
        reply.drain(..8);
        Ok(Answer { code, results: reply })
    }

    /// Reads the results of call 22, which are the answer to the call in it.
    pub(crate) fn of_numbered(call: &Call, request: u32, mut results: Vec<u8>) -> Result<Answer> {
        if results.len() < 12 || word(&results, 0) != request || word(&results, 4) != call.number() {
            return Err(Error::MigReplyMismatch);
        }
        let code = word(&results, 8);
        results.drain(..12);
        Ok(Answer { code, results })
    }

    /// Returns the results, if the code is 0.
    pub(crate) fn ok(self) -> Result<Vec<u8>> {
        match self.code {
            0 => Ok(self.results),
            code => Err(Error::from_code(code)),
        }
    }
}

/// Reads a frame, without its length.
pub(crate) fn read_frame(stream: &UnixStream, end: &Deadline) -> io::Result<Vec<u8>> {
    let mut length = [0; 4];
    read(stream, &mut length, end)?;
    let length = u32::from_le_bytes(length) as usize;
    if !(4..=LONGEST).contains(&length) {
        return Err(io::ErrorKind::InvalidData.into());
    }
    let mut content = vec![0; length];
    read(stream, &mut content, end)?;
    Ok(content)
}

fn read(mut stream: &UnixStream, mut rest: &mut [u8], end: &Deadline) -> io::Result<()> {
    while !rest.is_empty() {
        stream.set_read_timeout(end.left_for_socket())?;
        match stream.read(rest) {
            Ok(0) => return Err(io::ErrorKind::UnexpectedEof.into()),
            Ok(count) => rest = &mut rest[count..],
            Err(fault) if fault.kind() == io::ErrorKind::Interrupted => {}
            Err(fault) if fault.kind() == io::ErrorKind::WouldBlock => return Err(io::ErrorKind::TimedOut.into()),
            Err(fault) => return Err(fault),
        }
    }
    Ok(())
}

/// Returns the word at a place, which has to be within the bytes.
pub(crate) fn word(bytes: &[u8], at: usize) -> u32 {
    u32::from_le_bytes([bytes[at], bytes[at + 1], bytes[at + 2], bytes[at + 3]])
}

/// Returns the words of bytes, whose number has to be a multiple of 4.
pub(crate) fn words(bytes: &[u8]) -> Vec<u32> {
    bytes.chunks_exact(4).map(|chunk| word(chunk, 0)).collect()
}
