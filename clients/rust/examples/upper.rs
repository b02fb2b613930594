//! A server that answers each request in capitals, and a client of it, in one program.
//!
//!     machrun SOCKET cargo run --example upper -- some words

use std::error::Error;
use std::thread;

use machipc::{Message, ReceiveRight, Request, SendRight, Server, Task};

/// The id of a request; its reply's is greater by 100.
const UPPER: i32 = 500;

/// Answers requests until no client is left that could send one.
fn serve(service: &ReceiveRight) -> Result<(), machipc::Error> {
    let mut server = Server::new();
    let stopper = server.stopper();
    server.on(UPPER, |request| {
        let text: Vec<u8> =
            request.items().flatten().filter_map(|item| item.data()).flat_map(|it| it.bytes).copied().collect();
        Ok(Some(request.answer().bytes(&text.to_ascii_uppercase())))
    });
    server.on(Request::NoSenders as i32, move |_| {
        stopper.stop();
        Ok(None)
    });
    server.run(service, None)
}

/// Asks for a text in capitals.
fn ask(task: &Task, service: &SendRight, text: &str) -> Result<String, Box<dyn Error>> {
    let port = task.allocate()?;
    let question = Message::new(UPPER).text(text).reply_to(&port);
    let answer = service.send_receive(question, &port, None).map_err(machipc::Error::from)?;
    let data = answer.items().next().ok_or("the answer is empty")??.data().ok_or("the answer is no text")?;
    Ok(data.text()?.to_owned())
}

fn run(texts: &[String]) -> Result<Vec<String>, Box<dyn Error>> {
    let task = Task::adopt()?;
    let service = task.allocate()?;
    let right = service.make_send()?;
    service.request_notification(Request::NoSenders, 1, &service)?;
    let server = thread::spawn(move || serve(&service));
    let answers = texts.iter().map(|text| ask(&task, &right, text)).collect();
    drop(right);
    server.join().expect("the server's thread panicked")?;
    answers
}

fn main() -> Result<(), Box<dyn Error>> {
    let texts: Vec<String> = std::env::args().skip(1).collect();
    for answer in run(&texts)? {
        println!("{answer}");
    }
    Ok(())
}

#[test]
fn it_answers() {
    assert_eq!(run(&["two".into(), "words".into()]).unwrap(), ["TWO", "WORDS"]);
}
