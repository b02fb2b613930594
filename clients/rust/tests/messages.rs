//! Messages with data and with rights, refusals and waits.

mod common;

use std::thread;
use std::time::{Duration, Instant};

use common::{assert_unused, task};
use machipc::{kinds, Disposition, Error, Item, Kind, Malformed, Message, ReceiveOptions, Right};

const NOW: Option<Duration> = Some(Duration::ZERO);

#[test]
fn forms() {
    let task = task();
    let port = task.allocate().unwrap();
    let sent = Message::new(-5).bytes(b"odd").words(&[1, u32::MAX]).data(kinds::CHAR, 8, &[7; 5000]).text("text");
    port.send(sent, None).unwrap();
    let received = port.receive(NOW).unwrap();
    let items: Vec<_> = received.items().map(|item| item.unwrap().data().unwrap()).collect();
    assert_eq!((received.id(), received.seqno(), received.port(), items.len()), (-5, 0, port.name(), 4));
    assert_eq!((items[0].kind, items[0].bits, items[0].number, items[0].bytes), (kinds::BYTE, 8, 3, &b"odd"[..]));
    assert_eq!(items[1].words().collect::<Vec<_>>(), [1, u32::MAX]);
    assert_eq!((items[2].number, items[2].bytes), (5000, &[7; 5000][..]));
    assert_eq!(items[3].text(), Ok("text"));
}

#[test]
fn malformed_bodies() {
    let task = task();
    let port = task.allocate().unwrap();
    for body in [&[1, 0x20, 0xff, 0x1f][..], &[0, 0, 0, 0], &[0x11, 8, 1, 0x10, 0, 0, 0, 0]] {
        port.send(Message::with_body(1, body), None).unwrap();
        let received = port.receive(NOW).unwrap();
        assert_eq!(received.items().collect::<Vec<_>>(), [Err(Malformed)]);
        assert_eq!(received.body(), body);
    }
}

#[test]
fn rights_move() {
    let task = task();
    let port = task.allocate().unwrap();
    let (carried, other) = (task.allocate().unwrap(), task.allocate().unwrap());
    let (send, once, name) = (other.make_send().unwrap(), other.make_send_once().unwrap(), carried.name());
    let message = Message::new(1).receive_right(carried).send_right(send).send_once_right(once).make_send(&other);
    port.send(message, None).unwrap();
    assert_unused(&task, name);
    let mut received = port.receive(NOW).unwrap();
    let kinds: Vec<_> = received.items().map(|item| matches!(item, Ok(Item::Rights { kind: 16..=18, .. }))).collect();
    assert_eq!(kinds, [true; 4]);
    let mut rights = received.take_rights().into_iter();
    let carried = rights.next().unwrap().into_receive().unwrap();
    let send = rights.next().unwrap().into_send().unwrap();
    let once = rights.next().unwrap().into_send_once().unwrap();
    assert!(matches!(rights.next().unwrap().into_receive(), Err(Error::KernInvalidRight)));
    assert_eq!(task.get_refs(other.name(), Kind::Send), Ok(1));
    send.send(Message::new(2), None).unwrap();
    once.send(Message::new(3)).unwrap();
    assert_eq!([other.receive(NOW).unwrap().id(), other.receive(NOW).unwrap().id()], [2, 3]);
    assert_eq!(carried.status().unwrap().messages, 0);
}

#[test]
fn unused_rights_are_given_back() {
    let task = task();
    let port = task.allocate().unwrap();
    let carried = task.allocate().unwrap();
    let once = port.make_send_once().unwrap();
    drop(Message::new(1).send_once_right(once));
    assert!(port.receive(NOW).unwrap().is_send_once_notice());
    port.send(Message::new(1).receive_right(carried).reply_to(&port), None).unwrap();
    let received = port.receive(NOW).unwrap();
    let names: Vec<_> = received.items().flat_map(|item| item.unwrap().names().collect::<Vec<_>>()).collect();
    assert!(task.type_of(names[0]).unwrap().holds(Kind::Receive));
    drop(received);
    assert_unused(&task, names[0]);
    assert!(port.receive(NOW).unwrap().is_send_once_notice());
}

#[test]
fn dead_and_null_rights() {
    let task = task();
    let port = task.allocate().unwrap();
    let other = task.allocate().unwrap();
    let right = other.make_send().unwrap();
    port.send(Message::new(1).copy_send(&right), None).unwrap();
    drop(other);
    assert!(matches!(port.receive(NOW).unwrap().take_rights()[..], [Right::Dead]));
}

#[test]
fn refused_messages_keep_their_rights() {
    let task = task();
    let (port, carried) = (task.allocate().unwrap(), task.allocate().unwrap());
    let right = port.make_send().unwrap();
    port.set_queue_limit(0).unwrap();
    let refused = right.send(Message::new(9).receive_right(carried), NOW).unwrap_err();
    assert_eq!((refused.error(), refused.is_unsent()), (&Error::MachSendTimedOut, true));
    let message = refused.into_message().unwrap();
    port.set_queue_limit(5).unwrap();
    right.send(message, NOW).unwrap();
    assert_eq!(port.receive(NOW).unwrap().id(), 9);
    let large = right.send(Message::with_body(1, &[0; 8192]), None).unwrap_err();
    assert_eq!(large.error(), &Error::MachSendNoBuffer);
    let odd = right.send(Message::with_body(1, &[0; 3]), None).unwrap_err();
    assert_eq!(odd.error(), &Error::MachSendMsgTooSmall);
    let unknown = task.port(machipc::Name(0xdead)).send(Message::new(1), None).unwrap_err();
    assert_eq!(machipc::Error::from(unknown), Error::MachSendInvalidDest);
    let once = port.make_send_once().unwrap();
    let name = once.name();
    assert_eq!(once.send(Message::with_body(1, &[0; 3])).unwrap_err().error(), &Error::MachSendMsgTooSmall);
    assert_unused(&task, name);
}

#[test]
fn too_large() {
    let task = task();
    let port = task.allocate().unwrap();
    port.send(Message::with_body(1, &[0; 40]), None).unwrap();
    let small = ReceiveOptions { timeout: NOW, limit: 32, keep_large: true };
    let wanted = Error::MachRcvTooLarge { size: 64, port: port.name() };
    assert_eq!(port.receive_with(&small).unwrap_err(), wanted);
    assert_eq!(port.status().unwrap().messages, 1);
    let destroyed = ReceiveOptions { keep_large: false, ..small };
    assert_eq!(port.receive_with(&destroyed).unwrap_err(), wanted);
    assert_eq!(port.receive(NOW).unwrap_err(), Error::MachRcvTimedOut);
}

#[test]
fn replies() {
    let task = task();
    let service = task.allocate().unwrap();
    let right = service.make_send().unwrap();
    let server = thread::spawn(move || {
        for _ in 0..2 {
            let mut request = service.receive(None).unwrap();
            let reply = request.take_reply().unwrap();
            if request.id() == 1 {
                reply.send(Message::new(101)).unwrap();
            }
        }
    });
    let port = task.allocate().unwrap();
    let answer = right.send_receive(Message::new(1).reply_to(&port), &port, None).unwrap();
    assert_eq!(answer.id(), 101);
    let unanswered = right.send_receive(Message::new(2).reply_to(&port), &port, None).unwrap();
    assert!(unanswered.is_send_once_notice());
    server.join().unwrap();
    let gone = right.send_receive(Message::new(3).reply_to(&port), &port, NOW).unwrap_err();
    assert_eq!((gone.error(), gone.is_unsent()), (&Error::MachSendInvalidDest, true));
}

#[test]
fn replies_by_send_rights() {
    let task = task();
    let port = task.allocate().unwrap();
    let reply = port.make_send().unwrap();
    port.send(Message::new(1).reply_by(&reply, Disposition::CopySend), None).unwrap();
    port.receive(NOW).unwrap().take_reply().unwrap().send(Message::new(2)).unwrap();
    assert_eq!(port.receive(NOW).unwrap().id(), 2);
    assert_eq!(task.get_refs(port.name(), Kind::Send), Ok(1));
}

#[test]
fn waits() {
    let task = task();
    let port = task.allocate().unwrap();
    let time = Duration::from_millis(30);
    let began = Instant::now();
    assert_eq!(port.receive(Some(time)).unwrap_err(), Error::MachRcvTimedOut);
    assert!(began.elapsed() >= time);
    let right = port.make_send().unwrap();
    let sender = thread::spawn(move || {
        thread::sleep(Duration::from_millis(50));
        right.send(Message::new(9), None).unwrap();
    });
    assert_eq!(port.receive(None).unwrap().id(), 9);
    sender.join().unwrap();
}

#[test]
fn sets() {
    let task = task();
    let (one, two) = (task.allocate().unwrap(), task.allocate().unwrap());
    let set = task.allocate_set().unwrap();
    set.insert(&one).unwrap();
    set.insert(&two).unwrap();
    two.send(Message::new(2), None).unwrap();
    let received = set.receive(NOW).unwrap();
    assert_eq!((received.id(), received.port()), (2, two.name()));
    assert_eq!(one.receive(NOW).unwrap_err(), Error::MachRcvInSet);
    assert_eq!(set.receive(NOW).unwrap_err(), Error::MachRcvTimedOut);
}

#[test]
fn watches() {
    let task = task();
    let port = task.allocate().unwrap();
    let ended = task.watch(port.name(), Some(Duration::from_millis(10))).unwrap().finish();
    assert_eq!(ended, Err(Error::MachRcvTimedOut));
    drop(task.watch(port.name(), task.answer_time()).unwrap());
    let watch = task.watch(port.name(), task.answer_time()).unwrap();
    port.send(Message::new(1), None).unwrap();
    assert_eq!(watch.finish(), Ok(()));
    assert_eq!(port.receive(NOW).unwrap().id(), 1);
    let watch = task.watch(port.name(), task.answer_time()).unwrap();
    drop(port);
    assert!(matches!(watch.finish(), Err(Error::MachRcvPortDied | Error::MachRcvInvalidName)));
}

#[test]
fn threads() {
    const SENDERS: i32 = 4;
    const EACH: i32 = 25;
    let task = task();
    let port = task.allocate().unwrap();
    port.set_queue_limit(1).unwrap();
    let mut next = [0; SENDERS as usize];
    thread::scope(|scope| {
        for sender in 0..SENDERS {
            let right = port.make_send().unwrap();
            scope.spawn(move || {
                for i in 0..EACH {
                    right.send(Message::new(sender * EACH + i), None).unwrap();
                }
            });
        }
        for _ in 0..SENDERS * EACH {
            let id = port.receive(None).unwrap().id();
            let sender = (id / EACH) as usize;
            assert_eq!(id % EACH, next[sender]);
            next[sender] += 1;
        }
    });
    assert_eq!(next, [EACH; SENDERS as usize]);
}
