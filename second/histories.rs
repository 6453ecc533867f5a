// The comparison of histories: a bench from its opening on, and the answer to each call.

use crate::bench::Bench;
use crate::compare::Kind;
use crate::history_cases;
use crate::list::{Refusal, Row};
use crate::numbers::number;
use crate::tally::{numbered, Entry, Tally};

pub struct Histories;

impl Kind for Histories {
    const NAME: &'static str = "histories";
    const FRAMES: &'static str = "history-frames";
    const ANSWERS: &'static str = "history-answers";
    type Own = Ending;

    fn fixed() -> Vec<Vec<u8>> {
        history_cases::fixed()
    }

    fn random(seed: u64, index: u64) -> Vec<u8> {
        history_cases::history(seed, index)
    }

    fn own(case: &[u8]) -> Ending {
        ending(case)
    }

    fn bytes(own: &Ending) -> Vec<u8> {
        bytes(own)
    }

    fn required() -> Vec<Entry> {
        required()
    }

    fn count(tally: &mut Tally, own: &Ending) {
        count_ending(tally, own);
    }
}

/// As many bytes has the program under comparison for the answers to one history.
const ANSWER_ROOM: usize = 4_096;

/// How a history ends. Places of calls are counted in bytes from the first call on.
pub enum Ending {
    Done(Vec<u8>),
    NotOpened(Refusal),
    NotACall(usize),
    NoRoom(usize),
    TooShort,
}

fn bytes(ending: &Ending) -> Vec<u8> {
    let with_place = |kind: u8, place: usize| vec![kind, (place >> 8) as u8, place as u8];
    match ending {
        Ending::Done(answers) => [&[0], &answers[..]].concat(),
        Ending::NotOpened(refusal) => vec![1, refusal.number as u8, refusal.place as u8],
        Ending::NotACall(place) => with_place(2, *place),
        Ending::NoRoom(place) => with_place(3, *place),
        Ending::TooShort => vec![4],
    }
}

fn ending(history: &[u8]) -> Ending {
    let &[cores, count, ref rest @ ..] = history else {
        return Ending::TooShort;
    };
    let length = 12 * usize::from(count);
    if rest.len() < length {
        return Ending::TooShort;
    }
    let (front, calls) = rest.split_at(length);
    let rows: Vec<Row> = front.chunks(12).map(row).collect();
    match Bench::open(u64::from(cores), &rows) {
        Ok(bench) => run(bench, calls),
        Err(refusal) => Ending::NotOpened(refusal),
    }
}

fn row(bytes: &[u8]) -> Row {
    Row {
        c: number(&bytes[..4]),
        d: number(&bytes[4..8]),
        t: number(&bytes[8..]),
    }
}

fn run(mut bench: Bench, calls: &[u8]) -> Ending {
    let mut answers = Vec::new();
    for (index, call) in calls.chunks(6).enumerate() {
        let Some(answer) = answer_call(&mut bench, call) else {
            return Ending::NotACall(6 * index);
        };
        if answers.len() + answer.len() > ANSWER_ROOM {
            return Ending::NoRoom(6 * index);
        }
        answers.extend(answer);
    }
    Ending::Done(answers)
}

/// Nothing if it is no call.
fn answer_call(bench: &mut Bench, call: &[u8]) -> Option<Vec<u8>> {
    let answered = match *call {
        [1, place, ref demand @ ..] if demand.len() == 4 => bench
            .release(u64::from(place), number(demand))
            .map(|()| Vec::new()),
        [2, _, _, _, _, _] => bench.tick(),
        _ => return None,
    };
    Some(match answered {
        Ok(finished) => {
            let mut answer = vec![0, 0, finished.len() as u8];
            for finish in finished {
                answer.push(finish.place as u8);
                answer.extend((finish.response as u32).to_be_bytes());
            }
            answer
        }
        Err(refusal) => vec![refusal.number as u8, refusal.place as u8, 0],
    })
}

const DONE: &str = "ending 0, all calls answered";
const NOT_OPENED: &str = "ending 1, not opened";
const NOT_A_CALL: &str = "ending 2, not a call";
const NO_ROOM: &str = "ending 3, no room";
const TOO_SHORT: &str = "ending 4, too short for its rows";
const FAULT: &str = "not opened, by fault";
const CALL: &str = "calls answered, by number";
const POLLS: &str = "polls ended";

/// Each ending, each fault of an opening, and each answer to a call but 24 and 29: 24 takes too many
/// ticks, and no opened bench is broken.
fn required() -> Vec<Entry> {
    let endings = [DONE, NOT_OPENED, NOT_A_CALL, NO_ROOM, TOO_SHORT, POLLS];
    let mut entries: Vec<Entry> = endings.iter().map(|&name| (name, None)).collect();
    entries.extend(numbered(FAULT, &[1, 2, 3, 4, 5, 6]));
    entries.extend(numbered(CALL, &[0, 20, 21, 22, 23]));
    entries
}

fn count_ending(tally: &mut Tally, ending: &Ending) {
    tally.add(match ending {
        Ending::Done(_) => DONE,
        Ending::NotOpened(_) => NOT_OPENED,
        Ending::NotACall(_) => NOT_A_CALL,
        Ending::NoRoom(_) => NO_ROOM,
        Ending::TooShort => TOO_SHORT,
    });
    match ending {
        Ending::Done(answers) => count_answers(tally, answers),
        Ending::NotOpened(refusal) => tally.add_number(FAULT, u64::from(refusal.number)),
        _ => {}
    }
}

/// The answers stand one after the other, each with five bytes for each poll that ended.
fn count_answers(tally: &mut Tally, mut answers: &[u8]) {
    while let &[number, _, polls, ..] = answers {
        tally.add_number(CALL, u64::from(number));
        tally.add_times((POLLS, None), u64::from(polls));
        answers = &answers[3 + 5 * usize::from(polls)..];
    }
}
