//! Receives of a task whose server moves from one path to another, answers late, or is killed after a long wait.
//! `clients/test` cuts the paths, holds the answers back or kills the server, reads what this prints, and writes a line when
//! it continues.

use std::io;
use std::time::Duration;

use machipc::{Disposition, Error, Message, Options, ReceiveRight};
use machipc_tokio::{call, Receiver};

async fn move_on() {
    let options = Options::new().patience(Some(Duration::from_secs(12)));
    let task = call(move || options.once(true).adopt()).await.unwrap();
    let port = task.bootstrap().name();
    println!("\nport {} {}", task.space(), port.0);
    let receiver = Receiver::new(ReceiveRight::from_name(&task, port));
    println!("got {}", receiver.receive(None).await.unwrap().id());
    io::stdin().read_line(&mut String::new()).unwrap();
    let made = call(move || task.allocate()).await.unwrap().forget();
    println!("made {}", made.0);
    let task = call(move || options.adopt()).await.unwrap();
    println!("plain");
    let sender = task.clone();
    call(move || sender.send(port, Disposition::MakeSend, Message::new(8), None)).await.unwrap();
    let plain = Receiver::new(ReceiveRight::from_name(&task, made));
    println!("replied {}", plain.receive(None).await.unwrap().id());
    let cut = plain.receive(None).await.unwrap_err();
    assert_eq!(cut, Error::MachRcvInterrupted(io::ErrorKind::TimedOut));
    println!("cut");
    std::mem::forget((receiver, plain));
}

#[test]
#[ignore = "clients/test runs it"]
fn moved() {
    tokio::runtime::Builder::new_current_thread().enable_all().build().unwrap().block_on(move_on());
}

async fn be_late() {
    let options = Options::new().patience(Some(Duration::from_secs(9)));
    let task = call(move || options.adopt()).await.unwrap();
    let port = task.bootstrap().name();
    println!("\nport {} {}", task.space(), port.0);
    io::stdin().read_line(&mut String::new()).unwrap();
    let receiver = Receiver::new(ReceiveRight::from_name(&task, port));
    loop {
        let other = task.clone();
        match call(move || other.allocate()).await {
            Err(fault) if fault.is_cut() => println!("late"),
            made => break println!("made {}", made.unwrap().forget().0),
        }
    }
    loop {
        match receiver.receive(None).await {
            Err(fault) if fault.is_cut() => println!("late"),
            received => break println!("got {}", received.unwrap().id()),
        }
    }
    std::mem::forget(receiver);
}

#[test]
#[ignore = "clients/test runs it"]
fn late() {
    tokio::runtime::Builder::new_current_thread().enable_all().build().unwrap().block_on(be_late());
}

async fn be_idle() {
    let options = Options::new().patience(Some(Duration::from_secs(5))).once(true);
    let task = call(move || options.adopt()).await.unwrap();
    let port = task.bootstrap().name();
    println!("\nport {} {}", task.space(), port.0);
    let receiver = Receiver::new(ReceiveRight::from_name(&task, port));
    println!("got {}", receiver.receive(None).await.unwrap().id());
    std::mem::forget(receiver);
}

#[test]
#[ignore = "clients/test runs it"]
fn idle() {
    tokio::runtime::Builder::new_current_thread().enable_all().build().unwrap().block_on(be_idle());
}
