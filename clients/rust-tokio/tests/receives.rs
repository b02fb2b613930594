//! Receives that are cancelled, and those that aren't.

use std::future::Future;
use std::sync::atomic::{AtomicBool, Ordering};
use std::sync::Arc;
use std::time::Duration;

use machipc::{Error, Message, Options, Task};
use machipc_tokio::{call, release, send, send_receive, Receiver};
use tokio::time::{sleep, timeout};

fn rounds() -> usize {
    std::env::var("MACHIPC_ROUNDS").map_or(300, |text| text.parse().expect("MACHIPC_ROUNDS is a number"))
}

/// Runs a test in one thread.
fn run(test: impl Future<Output = ()>) {
    tokio::runtime::Builder::new_current_thread().enable_all().build().unwrap().block_on(test);
}

async fn adopt(options: Options) -> Task {
    call(move || options.adopt().expect("the tests run under machrun: machrun SOCKET cargo test --offline")).await
}

/// Returns a time of up to three milliseconds, pseudorandom (xorshift).
fn random_time(state: &mut u64) -> Duration {
    *state ^= *state << 13;
    *state ^= *state >> 7;
    *state ^= *state << 17;
    Duration::from_micros(*state % 3000)
}

/// Cancels receives at random moments while messages come, until there were enough of both. Each comes once, and in order.
async fn cancelled(task: Task) {
    let port = call(move || task.allocate().unwrap()).await;
    let right = port.make_send().unwrap();
    let receiver = Receiver::new(port);
    let is_over = Arc::new(AtomicBool::new(false));
    let sender = tokio::spawn({
        let is_over = is_over.clone();
        async move {
            let (mut chance, mut sent) = (0x0fed_cba9_8765_4321, 0);
            while !is_over.load(Ordering::Relaxed) {
                send(&right, Message::new(sent), None).await.unwrap();
                sent += 1;
                sleep(random_time(&mut chance)).await;
            }
            release(right).await;
            sent
        }
    });
    let (mut chance, mut cancels, mut got) = (0x1234_5678_9abc_def0, 0, Vec::new());
    while !sender.is_finished() {
        match timeout(random_time(&mut chance), receiver.receive(None)).await {
            Ok(received) => got.push(received.unwrap().id()),
            Err(_) => cancels += 1,
        }
        if got.len() >= rounds() / 3 && cancels >= rounds() / 3 {
            is_over.store(true, Ordering::Relaxed);
        }
    }
    let end = loop {
        match receiver.receive(Some(Duration::ZERO)).await {
            Ok(received) => got.push(received.id()),
            Err(fault) => break fault,
        }
    };
    assert_eq!(end, Error::MachRcvTimedOut);
    assert_eq!(got, (0..sender.await.unwrap()).collect::<Vec<_>>());
    release(receiver).await;
}

#[test]
fn cancelled_in_one_thread() {
    run(async { cancelled(adopt(Options::new()).await).await });
}

#[test]
fn cancelled_in_many() {
    let runtime = tokio::runtime::Builder::new_multi_thread().worker_threads(3).enable_all().build().unwrap();
    runtime.block_on(async { cancelled(adopt(Options::new()).await).await });
}

/// One program at a time may number its calls in a space, so this is the only test that does.
#[test]
fn once() {
    run(async { cancelled(adopt(Options::new().once(true).patience(Some(Duration::from_secs(20)))).await).await });
}

#[test]
fn waits() {
    run(async {
        let task = adopt(Options::new()).await;
        let (port, set) = (task.allocate().unwrap(), task.allocate_set().unwrap());
        set.insert(&port).unwrap();
        let right = port.make_send().unwrap();
        let receiver = Arc::new(Receiver::new(set));
        let time = Duration::from_millis(20);
        assert_eq!(receiver.receive(Some(time)).await.unwrap_err(), Error::MachRcvTimedOut);
        let waiting = tokio::spawn({
            let receiver = receiver.clone();
            async move { receiver.receive(None).await.unwrap() }
        });
        tokio::time::sleep(time).await;
        send(&right, Message::new(9), None).await.unwrap();
        let received = waiting.await.unwrap();
        assert_eq!((received.id(), received.port()), (9, port.name()));
        port.set_queue_limit(0).unwrap();
        assert_eq!(send(&right, Message::new(1), Some(time)).await.unwrap_err(), Error::MachSendTimedOut);
    });
}

#[test]
fn a_port_that_dies() {
    run(async {
        let task = adopt(Options::new()).await;
        let receiver = Receiver::new(task.allocate().unwrap());
        let name = receiver.port().name();
        let waiting = tokio::spawn(async move { receiver.receive(None).await.map(|it| it.id()) });
        tokio::time::sleep(Duration::from_millis(30)).await;
        task.destroy(name).unwrap();
        assert!(matches!(waiting.await.unwrap(), Err(Error::MachRcvPortDied | Error::MachRcvInvalidName)));
    });
}

#[test]
fn replies() {
    run(async {
        let task = adopt(Options::new()).await;
        let (service, port) = (task.allocate().unwrap(), task.allocate().unwrap());
        let right = service.make_send().unwrap();
        let question = Message::new(1).reply_to(&port).detach();
        let service = Receiver::new(service);
        let server = tokio::spawn(async move {
            let reply = service.receive(None).await.unwrap().take_reply().unwrap();
            call(move || reply.send(Message::new(2)).unwrap()).await;
        });
        let answer = send_receive(&right, question, &Receiver::new(port), None).await.unwrap();
        assert_eq!(answer.id(), 2);
        server.await.unwrap();
    });
}
