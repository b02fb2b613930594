//! Calls of a task whose server moves from one path to another, answers late, or is killed after a long wait. `clients/test`
//! cuts the paths, holds the answers back or kills the server, reads what this prints, and writes a line when it continues.

use std::io;
use std::time::Duration;

use machipc::{Disposition, Error, Message, Options, ReceiveOptions, Result};

#[test]
#[ignore = "clients/test runs it"]
fn moved() {
    let options = Options::new().patience(Some(Duration::from_secs(12)));
    let task = options.once(true).adopt().unwrap();
    let port = task.bootstrap().name();
    println!("\nport {} {}", task.space(), port.0);
    println!("got {}", task.receive(port, &ReceiveOptions::default()).unwrap().id());
    io::stdin().read_line(&mut String::new()).unwrap();
    let made = task.allocate().unwrap().forget();
    println!("made {}", made.0);
    let task = options.adopt().unwrap();
    println!("plain");
    let reply = task.send_receive(port, Disposition::MakeSend, Message::new(8), made, None).unwrap();
    println!("replied {}", reply.id());
    let cut = task.receive(made, &ReceiveOptions::default()).unwrap_err();
    assert_eq!(cut, Error::MachRcvInterrupted(io::ErrorKind::TimedOut));
    println!("cut");
}

/// Makes a call again after each answer that is given up.
fn until_answered<T>(call: impl Fn() -> Result<T>) -> T {
    loop {
        match call() {
            Err(fault) if fault.is_cut() => println!("late"),
            made => return made.unwrap(),
        }
    }
}

#[test]
#[ignore = "clients/test runs it"]
fn late() {
    let task = Options::new().patience(Some(Duration::from_secs(9))).adopt().unwrap();
    let port = task.bootstrap().name();
    println!("\nport {} {}", task.space(), port.0);
    io::stdin().read_line(&mut String::new()).unwrap();
    println!("made {}", until_answered(|| task.allocate()).forget().0);
    println!("got {}", until_answered(|| task.receive(port, &ReceiveOptions::default())).id());
}

#[test]
#[ignore = "clients/test runs it"]
fn idle() {
    let task = Options::new().patience(Some(Duration::from_secs(5))).once(true).adopt().unwrap();
    let port = task.bootstrap().name();
    println!("\nport {} {}", task.space(), port.0);
    println!("got {}", task.receive(port, &ReceiveOptions::default()).unwrap().id());
}
