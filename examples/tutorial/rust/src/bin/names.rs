//! A name service: services check in under a name, and clients look them up.
//!
//! The space is its table: the name of a service's send right is computed from the service's name. So a service that
//! checked in is still known after the name service was killed and started again.

use machipc::{Disposition, Error, Kind, Message, Name, Received, Result, Server, Task};
use tutorial::{begin, name_for, text_of, Failure, CHECK_IN, LOOK_UP};

fn check_in(task: &Task, request: &mut Received) -> Result<Message<'static>> {
    let name = name_for(&text_of(request)?);
    let right = request.take_rights().pop().ok_or(Error::MigBadArguments)?.into_send()?;
    if right.name() != name {
        if right.name().0 & 0x4000_0000 != 0 {
            return Err(Error::KernRightExists); // the service is known under another name
        }
        match task.destroy(name) {
            Ok(()) | Err(Error::KernInvalidName) => {} // a service that was there before, or none
            Err(other) => return Err(other),
        }
        task.rename(right.forget(), name)?;
    } else {
        right.forget();
    }
    Ok(Message::new(CHECK_IN + 100).words(&[0]))
}

fn look_up(task: &Task, request: &Received) -> Result<Message<'static>> {
    let service = task.port(name_for(&text_of(request)?));
    if service.type_of()?.holds(Kind::DeadName) {
        task.destroy(service.name())?;
        return Err(Error::KernInvalidName); // the service is gone
    }
    let right = task.extract_right(service.name(), Disposition::CopySend)?;
    Ok(Message::new(LOOK_UP + 100).send_right(machipc::SendRight::from_name(task, right)))
}

fn main() -> std::result::Result<(), Failure> {
    let task = begin()?;
    let services = |name: &Name| name.0 & 0x4000_0000 != 0 || *name == task.bootstrap().name();
    let keep: Vec<Name> = task.names()?.into_keys().filter(services).collect();
    task.sweep(&keep)?;
    println!("names {}", std::process::id());
    let mut server = Server::new();
    server.on(CHECK_IN, |request| Ok(Some(check_in(&task, request)?)));
    server.on(LOOK_UP, |request| Ok(Some(look_up(&task, request)?)));
    Ok(server.run(&task.bootstrap(), None)?)
}
