//! What the tests share.
#![allow(dead_code)]

use std::ops::Deref;
use std::sync::{Mutex, MutexGuard, PoisonError};

use machipc::{Disposition, Error, Kind, Name, Task};

/// The tests share a space, so one at a time runs: a name that one gave back may be another's next.
static TURN: Mutex<()> = Mutex::new(());

pub struct Alone {
    task: Task,
    _turn: MutexGuard<'static, ()>,
}

impl Deref for Alone {
    type Target = Task;

    fn deref(&self) -> &Task {
        &self.task
    }
}

/// Returns the task that `machrun` made for the tests.
pub fn task() -> Alone {
    let turn = TURN.lock().unwrap_or_else(PoisonError::into_inner);
    let task = Task::adopt().expect("the tests run under machrun: machrun SOCKET cargo test --offline");
    Alone { task, _turn: turn }
}

/// Returns true if `machrun` confines the tests.
pub fn is_confined() -> bool {
    std::env::var_os("MACHIPC_FD").is_some()
}

/// Returns a name that the server doesn't choose by itself, and that no other test uses.
pub fn own_name(number: u32) -> Name {
    Name(0x4000_0000 + number)
}

/// Asserts that a name isn't in use.
pub fn assert_unused(task: &Task, name: Name) {
    assert_eq!(task.type_of(name), Err(Error::KernInvalidName));
}

/// Makes a space with a receive right, and returns a task there with that right's name. A confined task has none.
pub fn other_space(task: &Task) -> Option<(Task, Name)> {
    let name = task.allocate().unwrap().forget();
    let made = task.space_create(name, Disposition::MoveReceive);
    let (space, name) = made.unwrap();
    if is_confined() {
        assert_eq!(task.in_space(space).unwrap_err(), Error::KernNoAccess);
        return None;
    }
    let there = task.in_space(space).unwrap();
    assert!(there.type_of(name).unwrap().holds(Kind::Receive));
    Some((there, name))
}
