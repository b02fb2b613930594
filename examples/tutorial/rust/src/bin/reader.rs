//! reader SECONDS: reads the writer's file again and again. The number in it may never become smaller.

use std::thread::sleep;
use std::time::{Duration, Instant};

use machipc::{Error, Message, Port, SendRight};
use tutorial::{ask, begin, text_of, Failure, Refused, LOOK_UP, OPEN, PAUSE, READ};

fn look_up(names: &Port) -> Result<SendRight, Refused> {
    let mut found = ask(names, LOOK_UP, Message::new(LOOK_UP).text("diary"))?;
    Ok(found.take_rights().pop().ok_or(Error::MigReplyMismatch)?.into_send()?)
}

/// Returns the number in the file, and looks the file's right up first if it has none yet.
fn read(names: &Port, diary: &mut Option<SendRight>) -> Result<u32, Refused> {
    if diary.is_none() {
        *diary = Some(look_up(names)?);
    }
    let right = diary.as_ref().ok_or(Refused::Unanswered)?;
    let text = text_of(&ask(right, READ, Message::new(READ))?)?;
    Ok(text.parse().unwrap_or(0))
}

fn main() -> Result<(), Failure> {
    let end = Instant::now() + Duration::from_secs(std::env::args().nth(1).ok_or("reader SECONDS")?.parse()?);
    let task = begin()?;
    let (mut last, mut reads, mut wrong) = (0, 0, 0);
    let mut diary = None;
    while reads == 0 || Instant::now() < end {
        match read(&task.bootstrap(), &mut diary) {
            Ok(number) => {
                reads += 1;
                if number < last {
                    wrong += 1;
                }
                last = number;
                sleep(PAUSE / 10);
            }
            Err(Refused::Unanswered | Refused::By(Error::KernInvalidName)) => sleep(PAUSE),
            Err(other) => return Err(other.into()),
        }
    }
    let diary = diary.ok_or("the diary was never found")?;
    match ask(&diary, OPEN, Message::new(OPEN).text("other")) {
        Err(Refused::Unanswered | Refused::By(Error::KernNoAccess)) => {}
        _ => wrong += 1, // a right to one file opened another one
    }
    println!("reader: {reads} read, the last was {last}, {wrong} wrong");
    std::process::exit((wrong > 0).into());
}
