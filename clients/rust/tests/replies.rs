//! Tests with a server that closes connections, or sends invalid replies.

use std::io::{ErrorKind, Read, Write};
use std::os::unix::net::UnixListener;
use std::sync::atomic::{AtomicU32, Ordering};
use std::thread;

use machipc::{Error, Message, Task};

static NUMBER: AtomicU32 = AtomicU32::new(0);

/// Returns the error of a call on a server that takes one connection, attaches it and gives this reply to its next frame.
fn failed<T: std::fmt::Debug>(reply: &[u8], call: impl FnOnce(&Task) -> Result<T, Error>) -> Error {
    let number = NUMBER.fetch_add(1, Ordering::Relaxed);
    let path = std::env::temp_dir().join(format!("machipc-{}-{number}", std::process::id()));
    let listener = UnixListener::bind(&path).unwrap();
    let reply = reply.to_vec();
    let server = thread::spawn(move || {
        let (mut peer, _) = listener.accept().unwrap();
        for answer in [frame(&[8, 0, 0]), reply] {
            let _ = peer.read(&mut [0; 9000]);
            let _ = peer.write_all(&answer);
        }
    });
    let failed = call(&Task::connect(&path).unwrap()).unwrap_err();
    server.join().unwrap();
    std::fs::remove_file(path).unwrap();
    failed
}

fn frame(words: &[u32]) -> Vec<u8> {
    words.iter().flat_map(|word| word.to_le_bytes()).collect()
}

#[test]
fn replies_that_are_none() {
    let ended = Error::MachRcvInterrupted(ErrorKind::UnexpectedEof);
    for (reply, wanted) in [
        (vec![], ended.clone()),
        (b"\x0c\0\0\0\x05\0".to_vec(), ended.clone()),
        (frame(&[3, 5, 0, 0]), Error::MachRcvInterrupted(ErrorKind::InvalidData)),
        (frame(&[65_533, 5, 0, 0]), Error::MachRcvInterrupted(ErrorKind::InvalidData)),
        (frame(&[12, 6, 0, 0x100]), Error::MigReplyMismatch),
        (frame(&[8, 5, 0]), Error::MigReplyMismatch),
        (frame(&[4, 5]), Error::MigReplyMismatch),
        (frame(&[12, 5, 77, 0]), Error::Unknown(77)),
    ] {
        assert_eq!(failed(&reply, Task::allocate), wanted, "{reply:?}");
    }
}

#[test]
fn lists_that_are_none() {
    for rows in [&[][..], &[2, 0x100, 1], &[u32::MAX, 0x100, 1]] {
        let words = [&[8 + 4 * rows.len() as u32, 1, 0], rows].concat();
        assert_eq!(failed(&frame(&words), Task::names), Error::MigReplyMismatch);
    }
}

#[test]
fn messages_that_are_none() {
    for rest in [&[][..], &[24, 0x100], &[28, 0x100, 0, 24, 0, 0, 0, 0], &[8, 0x100, 0, 0]] {
        let words = [&[8 + 4 * rest.len() as u32, 19, 0], rest].concat();
        let receive = |task: &Task| task.receive(machipc::Name(0x100), &Default::default());
        assert_eq!(failed(&frame(&words), receive), Error::MigReplyMismatch, "{rest:?}");
    }
}

#[test]
fn a_send_that_is_cut_gives_no_message_back() {
    let cut = failed(&[], |task| {
        let refused = task.port(machipc::Name(0x100)).send(Message::new(1), None).unwrap_err();
        assert!(!refused.is_unsent());
        let error = refused.error().clone();
        assert!(refused.into_message().is_none());
        Err::<(), _>(error)
    });
    assert_eq!(cut, Error::MachSendInterrupted(ErrorKind::UnexpectedEof));
}
