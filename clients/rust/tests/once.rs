//! Single effects, on a server that may be killed and a connection that may be cut at any moment.

mod common;

use std::thread;
use std::time::Duration;

use machipc::{Error, Kind, Message, Options, Server, Task};

const NOW: Option<Duration> = Some(Duration::ZERO);

/// One program at a time may number its calls in a space, so all of it is one test.
#[test]
fn single_effects() {
    let task = Options::new().once(true).patience(Some(Duration::from_secs(20))).adopt().unwrap();
    for _ in 0..3 {
        calls(&task);
        messages(&task);
        carried(&task);
        threads(&task);
        served(&task);
    }
    println!("{} calls asked again", task.repeats());
    overtaken(&task);
}

fn calls(task: &Task) {
    let before = task.names().unwrap().len();
    let ports: Vec<_> = (0..15).map(|_| task.allocate().unwrap()).collect();
    assert_eq!(task.names().unwrap().len(), before + 15);
    for port in &ports {
        let one = port.make_send().unwrap();
        let two = one.try_clone().unwrap();
        drop(one);
        assert_eq!(task.get_refs(port.name(), Kind::Send), Ok(1));
        assert_eq!(port.status().unwrap().make_send_count, 1);
        drop(two);
    }
    drop(ports);
    assert_eq!(task.names().unwrap().len(), before);
    assert_eq!(task.destroy(machipc::Name(0x999)), Err(Error::KernInvalidName));
}

fn messages(task: &Task) {
    let port = task.allocate().unwrap();
    for id in 0..20 {
        port.send(Message::new(id), None).unwrap();
        let received = port.receive(None).unwrap();
        assert_eq!((received.id(), received.seqno()), (id, id as u32));
    }
    assert_eq!(port.receive(Some(Duration::from_millis(20))).unwrap_err(), Error::MachRcvTimedOut);
    let right = port.make_send().unwrap();
    assert_eq!(right.send_receive(Message::new(7), &port, None).unwrap().id(), 7);
    port.set_queue_limit(0).unwrap();
    assert_eq!(right.send(Message::new(8), NOW).unwrap_err().error(), &Error::MachSendTimedOut);
}

/// A right that is moved there and back is never there twice, and never lost.
fn carried(task: &Task) {
    let port = task.allocate().unwrap();
    let mut right = task.allocate().unwrap();
    let before = task.names().unwrap().len();
    for id in 0..10 {
        port.send(Message::new(id).receive_right(right), None).unwrap();
        right = port.receive(None).unwrap().take_rights().remove(0).into_receive().unwrap();
        assert_eq!(task.names().unwrap().len(), before);
    }
}

fn threads(task: &Task) {
    let port = task.allocate().unwrap();
    port.set_queue_limit(2).unwrap();
    thread::scope(|scope| {
        for sender in 0..3 {
            let right = port.make_send().unwrap();
            scope.spawn(move || (0..15).for_each(|i| right.send(Message::new(sender * 15 + i), None).unwrap()));
        }
        let mut ids: Vec<_> = (0..45).map(|_| port.receive(None).unwrap().id()).collect();
        ids.sort_unstable();
        assert_eq!(ids, (0..45).collect::<Vec<_>>());
    });
    assert_eq!(port.status().unwrap().messages, 0);
}

/// Each request is handled once, and has one reply.
fn served(task: &Task) {
    let (service, port) = (task.allocate().unwrap(), task.allocate().unwrap());
    let right = service.make_send().unwrap();
    let mut server = Server::new();
    let (stopper, mut count) = (server.stopper(), 0);
    server.on(1, move |request| {
        count += 1;
        if count == 5 {
            stopper.stop();
        }
        Ok(Some(request.answer().words(&[count])))
    });
    let answers: Vec<_> = thread::scope(|scope| {
        let running = scope.spawn(|| server.run(&service, None));
        let ask = |_| right.send_receive(Message::new(1).reply_to(&port), &port, None).unwrap();
        let answers = (0..5).map(ask).collect();
        assert_eq!(running.join().unwrap(), Ok(()));
        answers
    });
    for (number, answer) in (1..).zip(&answers) {
        let data = answer.items().next().unwrap().unwrap().data().unwrap();
        assert_eq!(data.words().collect::<Vec<_>>(), [number]);
    }
}

/// A second program that numbers its calls in the same space, against the rule: the first one's next call fails.
fn overtaken(task: &Task) {
    let other = Options::new().once(true).adopt().unwrap();
    let names: Vec<_> = (0..3).map(|_| other.allocate().unwrap().forget()).collect();
    let cut = task.destroy(names[0]).unwrap_err();
    assert_eq!(cut, Error::MachRcvInterrupted(std::io::ErrorKind::AlreadyExists));
    for name in names {
        task.destroy(name).unwrap();
    }
}
