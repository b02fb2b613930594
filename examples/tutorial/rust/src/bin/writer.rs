//! writer SECONDS: writes numbers to a file, reads each one back, and lets others find the file.
//!
//! It checks the file's right in at the name service. So a reader gets a right to this file, and none to the service of
//! files.

use std::thread::sleep;
use std::time::{Duration, Instant};

use machipc::{Error, Message, Port, Received, SendRight};
use tutorial::{ask, begin, text_of, Failure, Refused, CHECK_IN, LOOK_UP, OPEN, PAUSE, READ, WRITE};

/// Repeats a request until it is answered. The requests here may be made twice: writing the same text again changes
/// nothing.
fn ask_again<'a>(
    again: &mut u32,
    service: &Port,
    id: i32,
    question: impl Fn() -> Message<'a>,
) -> Result<Received, Refused> {
    loop {
        match ask(service, id, question()) {
            Err(Refused::Unanswered | Refused::By(Error::KernInvalidName)) => {
                *again += 1;
                sleep(PAUSE);
            }
            answered => return answered,
        }
    }
}

fn right_of(mut answer: Received) -> Result<SendRight, Failure> {
    Ok(answer.take_rights().pop().ok_or("an answer without a right")?.into_send()?)
}

fn main() -> Result<(), Failure> {
    let end = Instant::now() + Duration::from_secs(std::env::args().nth(1).ok_or("writer SECONDS")?.parse()?);
    let task = begin()?;
    let (mut written, mut again, mut wrong) = (0, 0, 0);
    let names = task.bootstrap();
    let files = right_of(ask_again(&mut again, &names, LOOK_UP, || Message::new(LOOK_UP).text("files"))?)?;
    let diary = right_of(ask_again(&mut again, &files, OPEN, || Message::new(OPEN).text("diary"))?)?;
    let check_in = || Message::new(CHECK_IN).text("diary").copy_send(&diary);
    ask_again(&mut again, &names, CHECK_IN, check_in)?;
    while written == 0 || Instant::now() < end {
        written += 1;
        let text = written.to_string();
        ask_again(&mut again, &diary, WRITE, || Message::new(WRITE).text(&text))?;
        let found = text_of(&ask_again(&mut again, &diary, READ, || Message::new(READ))?)?;
        if found != text {
            wrong += 1;
        }
    }
    println!("writer: {written} written, {again} asked again, {wrong} wrong");
    std::process::exit((wrong > 0).into());
}
