//! Calls on names, ports, sets and spaces.

mod common;

use std::time::Duration;

use common::{assert_unused, is_confined, other_space, own_name, task};
use machipc::{AdoptError, Disposition, Error, Kind, Message, Name, Notice, Options, Request, SendOnceRight, Task};

#[test]
fn every_type_may_go_to_another_thread() {
    fn may_go<T: Send + Sync>() {}
    may_go::<(Task, machipc::Connection, machipc::Watch, Options)>();
    may_go::<(machipc::Port, machipc::PortSet, machipc::ReceiveRight, machipc::SendRight, SendOnceRight)>();
    may_go::<(Message<'_>, machipc::Received, machipc::Reply, machipc::Right, machipc::SendError<'_>, Error)>();
}

#[test]
fn names() {
    let task = task();
    let port = task.allocate().unwrap();
    let set = task.allocate_set().unwrap();
    let dead = own_name(1);
    task.allocate_name(Kind::DeadName, dead).unwrap();
    let names = task.names().unwrap();
    assert!(names[&port.name()].holds(Kind::Receive) && !names[&port.name()].holds(Kind::Send));
    assert!(names[&set.name()].holds(Kind::PortSet) && names[&dead].holds(Kind::DeadName));
    assert_eq!(task.rename(port.name(), dead), Err(Error::KernNameExists));
    set.insert(&port).unwrap();
    assert_eq!(set.members().unwrap(), [port.name()]);
    assert_eq!(port.status().unwrap().set, set.name());
    set.remove(&port).unwrap();
    assert_eq!(set.remove(&port), Err(Error::KernNotInSet));
    task.destroy(dead).unwrap();
    assert_unused(&task, dead);
}

#[test]
fn renamed() {
    let task = task();
    let port = task.allocate().unwrap().forget();
    task.rename(port, own_name(2)).unwrap();
    assert_unused(&task, port);
    assert!(task.type_of(own_name(2)).unwrap().holds(Kind::Receive));
    task.destroy(own_name(2)).unwrap();
}

#[test]
fn references() {
    let task = task();
    let port = task.allocate().unwrap();
    let one = port.make_send().unwrap();
    let two = one.try_clone().unwrap();
    assert_eq!(task.get_refs(port.name(), Kind::Send), Ok(2));
    assert_eq!(task.mod_refs(port.name(), Kind::Send, -3), Err(Error::KernInvalidValue));
    drop(one);
    assert_eq!(task.get_refs(port.name(), Kind::Send), Ok(1));
    let name = port.name();
    drop(port);
    assert!(two.type_of().unwrap().holds(Kind::DeadName));
    assert_eq!(task.get_refs(name, Kind::DeadName), Ok(1));
    drop(two);
    assert_unused(&task, name);
}

#[test]
fn dropping_releases_and_forget_keeps() {
    let task = task();
    let (port, set) = (task.allocate().unwrap(), task.allocate_set().unwrap());
    let once = port.make_send_once().unwrap();
    let names = [once.name(), port.name(), set.name()];
    assert_eq!(port.status().unwrap().send_once_rights, 1);
    drop(once);
    assert!(port.receive(Some(Duration::ZERO)).unwrap().is_send_once_notice());
    drop((port, set));
    for name in names {
        assert_unused(&task, name);
    }
    let kept = task.allocate().unwrap().forget();
    assert!(task.type_of(kept).unwrap().holds(Kind::Receive));
    assert_eq!(machipc::ReceiveRight::from_name(&task, kept).release(), Ok(()));
    assert_unused(&task, kept);
    assert_eq!(SendOnceRight::from_name(&task, kept).release(), Err(Error::KernInvalidName));
}

#[test]
fn receive_rights() {
    let task = task();
    let port = task.allocate().unwrap();
    port.set_queue_limit(2).unwrap();
    task.set_make_send_count(port.name(), 3).unwrap();
    task.set_seqno(port.name(), 4).unwrap();
    let status = port.status().unwrap();
    assert_eq!((status.queue_limit, status.make_send_count, status.seqno), (2, 3, 4));
    assert_eq!((status.messages, status.send_once_rights, status.has_senders), (0, 0, false));
    assert_eq!(port.set_queue_limit(65), Err(Error::KernInvalidValue));
}

#[test]
fn notices() {
    let task = task();
    let (watched, notices) = (task.allocate().unwrap(), task.allocate().unwrap());
    let right = watched.make_send().unwrap();
    assert!(right.request_notification(Request::DeadName, 0, &notices).unwrap().is_none());
    assert!(right.type_of().unwrap().has_dead_name_request());
    assert!(right.request_notification(Request::DeadName, 0, &notices).unwrap().is_some());
    assert!(notices.receive(Some(Duration::ZERO)).unwrap().is_send_once_notice());
    let name = watched.name();
    drop(watched);
    let notice = notices.receive(Some(Duration::ZERO)).unwrap().notice();
    assert_eq!(notice, Some(Notice::DeadName(name)));
    assert_eq!(task.get_refs(name, Kind::DeadName), Ok(2));
    task.deallocate(name).unwrap();
}

#[test]
fn no_senders() {
    let task = task();
    let (watched, notices) = (task.allocate().unwrap(), task.allocate().unwrap());
    watched.request_notification(Request::NoSenders, 1, &notices).unwrap();
    drop(watched.make_send().unwrap());
    assert_eq!(notices.receive(Some(Duration::ZERO)).unwrap().notice(), Some(Notice::NoSenders(1)));
}

#[test]
fn spaces() {
    let task = task();
    assert_eq!(
        task.in_space(9999).unwrap_err(),
        if is_confined() { Error::KernNoAccess } else { Error::KernInvalidTask }
    );
    if let Some((there, name)) = other_space(&task) {
        assert_eq!(there.names().unwrap().into_keys().collect::<Vec<_>>(), [name]);
        there.sweep(&[]).unwrap();
        assert!(there.names().unwrap().is_empty());
        there.confine().unwrap();
        assert_eq!(there.in_space(1).unwrap_err(), Error::KernNoAccess);
        assert!(there.names().unwrap().is_empty());
        there.space_destroy().unwrap();
        assert_eq!(there.names().unwrap_err(), Error::KernInvalidTask);
    }
    assert!(task.bootstrap().type_of().unwrap().holds(Kind::Receive));
}

#[test]
fn ends_of_numbered_spaces() {
    if let Some((there, _)) = other_space(&task()) {
        let path = std::env::var("MACHIPC_SOCKET").unwrap();
        let numbered = Options::new().space(there.space()).once(true).connect(path).unwrap();
        numbered.allocate().unwrap().forget();
        numbered.space_destroy().unwrap();
        assert_eq!(there.names().unwrap_err(), Error::KernInvalidTask);
    }
}

#[test]
fn rights_of_another_space() {
    let task = task();
    let port = task.allocate().unwrap();
    if let Some((there, name)) = other_space(&task) {
        let other = machipc::ReceiveRight::from_name(&there, name);
        for message in [Message::new(1).make_send(&other), Message::new(1).make_send(&port).make_send(&other)] {
            let refused = port.send(message, None).unwrap_err();
            assert_eq!(refused.error(), &Error::MachSendInvalidRight);
        }
        drop(other);
        there.space_destroy().unwrap();
    }
}

#[test]
fn no_server() {
    let refused = Task::connect("/nowhere/at/all").unwrap_err();
    assert_eq!(refused, Error::MachSendInterrupted(std::io::ErrorKind::NotFound));
    assert!(refused.is_cut() && !refused.is_timeout());
    assert!(refused.to_string().starts_with("MACH_SEND_INTERRUPTED (0x10000007): "));
    assert_eq!(AdoptError::Call(refused.clone()).to_string(), refused.to_string());
}

#[test]
fn refusals_have_their_names() {
    let task = task();
    let refused = task.type_of(Name(0xdead)).unwrap_err();
    assert_eq!(refused.to_string(), "KERN_INVALID_NAME (0xf): the name isn't in use");
    let once = task.extract_right(Name(0xdead), Disposition::MakeSendOnce).unwrap_err();
    assert_eq!(once.code(), 15);
}
