//! A server's loop.

mod common;

use std::sync::Mutex;
use std::thread;
use std::time::Duration;

use common::{assert_unused, task};
use machipc::{Disposition, Error, Kind, Message, ReceiveRight, Received, Reply, Server, Stopper};

const NOW: Option<Duration> = Some(Duration::ZERO);
const STOP: i32 = 999;

#[test]
fn a_server_may_go_to_another_thread() {
    fn may_go<T: Send>() {}
    fn may_be_shared<T: Sync>() {}
    may_go::<(Server<'_>, Stopper)>();
    may_be_shared::<Stopper>();
}

/// The words of an answer that has only data.
fn words(answer: &Received) -> Vec<u32> {
    answer.items().map(|item| item.unwrap().data().unwrap()).flat_map(|data| data.words()).collect()
}

/// Sends a request, has the server handle it in this thread, and gives the answer.
fn ask(server: &mut Server<'_>, service: &ReceiveRight, message: Message<'_>) -> Received {
    let port = service.task().allocate().unwrap();
    service.send(message.reply_to(&port), None).unwrap();
    server.handle(service.receive(NOW).unwrap());
    port.receive(NOW).unwrap()
}

/// Adds a handler that ends the loop.
fn add_stop(server: &mut Server<'_>) {
    let stopper = server.stopper();
    server.on(STOP, move |request| {
        stopper.stop();
        Ok(Some(request.answer()))
    });
}

#[test]
fn requests_in_a_loop() {
    let task = task();
    let service = task.allocate().unwrap();
    let right = service.make_send().unwrap();
    let mut server = Server::new();
    let mut count = 0;
    server.on(500, |request| {
        count += 1;
        Ok(Some(request.answer().words(&[count])))
    });
    add_stop(&mut server);
    // What is wrong is said after the loop's end: a panic before it would wait for the server forever.
    let answers: Vec<_> = thread::scope(|scope| {
        let running = scope.spawn(|| server.run(&service, None));
        let port = task.allocate().unwrap();
        let ask = |id| right.send_receive(Message::new(id).reply_to(&port), &port, None).unwrap();
        let answers = [500, 7].repeat(20).into_iter().chain([STOP]).map(ask).collect();
        assert_eq!(running.join().unwrap(), Ok(()));
        answers
    });
    drop(server);
    let (last, answers) = answers.split_last().unwrap();
    assert_eq!(last.id(), STOP + 100);
    for (number, pair) in (1..).zip(answers.chunks(2)) {
        assert_eq!((pair[0].id(), words(&pair[0])), (600, vec![number]));
        assert_eq!((pair[1].id(), words(&pair[1])), (107, vec![Error::MigBadId.code()]));
    }
    assert_eq!(count, 20);
}

#[test]
fn refusals() {
    let task = task();
    let service = task.allocate().unwrap();
    let other = task.allocate().unwrap();
    let mut faults = Vec::new();
    let mut server = Server::new();
    server.on(1, |_| Err(Error::KernNoSpace.into()));
    server.on(2, |request| Err(format!("no items in {} bytes", request.body().len()).into()));
    server.on(3, |_| Ok(Some("seven".parse::<u32>().map(|number| Message::new(number as i32))?)));
    server.on_fault(|id, fault| faults.push((id, fault.to_string())));
    let refused = [Error::KernNoSpace, Error::MigRemoteError, Error::MigRemoteError, Error::MigBadId];
    for (id, error) in (1..).zip(refused) {
        let answer = ask(&mut server, &service, Message::new(id).make_send(&other));
        assert_eq!((answer.id(), words(&answer)), (id + 100, vec![error.code()]));
        assert_eq!(task.get_refs(other.name(), Kind::Send), Ok(0), "the request's rights are given back");
    }
    drop(server);
    assert_eq!(faults.len(), 2);
    assert_eq!(faults[0], (2, "no items in 8 bytes".to_owned()));
}

#[test]
fn rights_that_a_handler_leaves_are_given_back() {
    let task = task();
    let service = task.allocate().unwrap();
    let (left, kept) = (task.allocate().unwrap(), Mutex::new(Vec::new()));
    let mut server = Server::new();
    server.on(1, |request| {
        let mut rights = request.take_rights();
        kept.lock().unwrap().push(rights.remove(0).into_receive()?);
        Ok(Some(request.answer()))
    });
    let moved = task.allocate().unwrap();
    let request = Message::new(1).receive_right(moved).make_send(&left);
    assert_eq!(ask(&mut server, &service, request).id(), 101);
    assert_eq!(task.get_refs(left.name(), Kind::Send), Ok(0));
    let kept = kept.lock().unwrap().pop().unwrap();
    assert!(task.type_of(kept.name()).unwrap().holds(Kind::Receive));
}

/// The notice of a send-once right that is given back comes before the reply.
#[test]
fn rights_are_given_back_before_the_reply() {
    let task = task();
    let (service, port) = (task.allocate().unwrap(), task.allocate().unwrap());
    let mut server = Server::new();
    server.on(1, |request| Ok(Some(request.answer())));
    for id in [1, 2] {
        service.send(Message::new(id).make_send_once(&port).reply_to(&port), None).unwrap();
        server.handle(service.receive(NOW).unwrap());
        assert!(port.receive(NOW).unwrap().is_send_once_notice());
        assert_eq!(port.receive(NOW).unwrap().id(), id + 100);
    }
}

/// A right goes out in a reply, and comes back if nobody takes the reply.
#[test]
fn rights_in_replies() {
    let task = task();
    let service = task.allocate().unwrap();
    let shown = task.allocate().unwrap();
    let mut server = Server::new();
    server.on(1, |request| Ok(Some(request.answer().make_send(&shown))));
    let given = task.clone();
    server.on(2, move |request| Ok(Some(request.answer().receive_right(given.allocate()?))));
    let mut answer = ask(&mut server, &service, Message::new(1));
    assert_eq!(answer.take_rights().remove(0).into_send().unwrap().name(), shown.name());
    let before = task.names().unwrap().len();
    service.send(Message::new(2), None).unwrap();
    server.handle(service.receive(NOW).unwrap());
    assert_eq!(task.names().unwrap().len(), before);
}

#[test]
fn requests_without_a_reply() {
    let task = task();
    let service = task.allocate().unwrap();
    let late: Mutex<Vec<Reply>> = Mutex::new(Vec::new());
    let mut server = Server::new();
    server.on(1, |_| Ok(None));
    server.on(2, |request| {
        late.lock().unwrap().extend(request.take_reply());
        Ok(None)
    });
    assert!(ask(&mut server, &service, Message::new(1)).is_send_once_notice());
    let port = task.allocate().unwrap();
    for id in 1..=3 {
        service.send(Message::new(id), None).unwrap();
    }
    service.send(Message::new(2).reply_to(&port), None).unwrap();
    assert_eq!(server.run(&service, NOW), Err(Error::MachRcvTimedOut));
    assert_eq!(port.receive(NOW).unwrap_err(), Error::MachRcvTimedOut);
    late.lock().unwrap().remove(0).send(Message::new(7)).unwrap();
    assert_eq!(port.receive(NOW).unwrap().id(), 7);
}

/// Full queues, dead reply ports and large requests hold nobody up.
#[test]
fn replies_that_nobody_takes() {
    let task = task();
    let service = task.allocate().unwrap();
    let (full, gone) = (task.allocate().unwrap(), task.allocate().unwrap());
    full.set_queue_limit(0).unwrap();
    let mut server = Server::new();
    server.set_limit(64);
    let mut count = 0;
    server.on(1, |request| {
        count += 1;
        Ok(Some(request.answer()))
    });
    add_stop(&mut server);
    for port in [&full, &gone] {
        service.send(Message::new(1).reply_by(port, Disposition::MakeSend), None).unwrap();
    }
    let name = gone.name();
    drop(gone);
    service.send(Message::with_body(1, &[0; 100]), None).unwrap();
    service.send(Message::new(STOP), None).unwrap();
    assert_eq!(server.run(&service, None), Ok(()));
    assert_eq!(full.status().unwrap().messages, 0);
    assert_unused(&task, name);
    assert!(!full.status().unwrap().has_senders);
    drop(server);
    assert_eq!(count, 2, "the request that is too large is destroyed");
}

#[test]
fn ends() {
    let task = task();
    let (service, set) = (task.allocate().unwrap(), task.allocate_set().unwrap());
    set.insert(&service).unwrap();
    let mut server = Server::new();
    add_stop(&mut server);
    let stopper = server.stopper();
    stopper.stop();
    assert_eq!(server.run(&set, None), Ok(()), "it was stopped before it began");
    assert_eq!(server.run(&set, NOW), Err(Error::MachRcvTimedOut));
    service.send(Message::new(STOP), None).unwrap();
    assert_eq!(server.run(&set, None), Ok(()));
    assert_eq!(server.run(&service, NOW), Err(Error::MachRcvInSet));
    let name = set.name();
    drop(set);
    assert_eq!(server.run(&task.port(name), None), Err(Error::MachRcvInvalidName));
}

/// Rights of a request whose handler panics are given back.
#[test]
fn panics() {
    let task = task();
    let service = task.allocate().unwrap();
    let port = task.allocate().unwrap();
    service.send(Message::new(1).reply_to(&port), None).unwrap();
    let request = service.receive(NOW).unwrap();
    let panicked = thread::spawn(move || {
        let mut server = Server::new();
        server.on(1, |_| panic!("as the test wants"));
        server.handle(request);
    });
    assert!(panicked.join().is_err());
    assert!(port.receive(NOW).unwrap().is_send_once_notice());
}
