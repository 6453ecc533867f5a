// The comparison of benches: calls on a hand-made bench, their answers, and the bench after them.

use crate::bench::{Bench, Clause, Finish};
use crate::bench_cases;
use crate::compare::Kind;
use crate::lent_bench::{read_bench, read_call, write_bench, Call, BENCH, CALL};
use crate::numbers::append;
use crate::tally::{numbered, Entry, Tally};

pub struct Benches;

/// What the calls of a case come to.
pub struct Run {
    answers: Vec<Answered>,
    /// The bench after the last call, in bytes.
    after: Vec<u8>,
}

/// The answer to a call: number and place 0 where it was taken. A run has nothing in it.
pub struct Answered {
    call: Call,
    number: u32,
    place: u64,
    finished: Vec<Finish>,
    /// What the bench breaks, for number 29.
    broken: Vec<Clause>,
}

impl Kind for Benches {
    const NAME: &'static str = "benches";
    const FRAMES: &'static str = "bench-frames";
    const ANSWERS: &'static str = "bench-answers";
    const ANSWERS_FRAMED: bool = false;
    type Own = Run;

    fn fixed() -> Vec<Vec<u8>> {
        bench_cases::fixed()
    }

    fn random(seed: u64, index: u64) -> Vec<u8> {
        bench_cases::case(seed, index)
    }

    fn own(case: &[u8]) -> Run {
        let (front, calls) = case.split_at(BENCH);
        let mut lent = read_bench(front);
        let calls = calls.chunks(CALL).map(read_call);
        let answers = calls.map(|call| answer(&mut lent.bench, call)).collect();
        let after = write_bench(&lent);
        Run { answers, after }
    }

    fn bytes(own: &Run) -> Vec<u8> {
        let mut bytes = Vec::new();
        for answered in &own.answers {
            append(&mut bytes, 1, u64::from(answered.number));
            append(&mut bytes, 8, answered.place);
            append(&mut bytes, 1, answered.finished.len() as u64);
            for finish in &answered.finished {
                append(&mut bytes, 1, finish.place as u64);
                append(&mut bytes, 8, finish.response);
            }
        }
        bytes.extend_from_slice(&own.after);
        bytes
    }

    fn required() -> Vec<Entry> {
        required()
    }

    fn count(tally: &mut Tally, own: &Run) {
        own.answers.iter().for_each(|answer| count(tally, answer));
    }
}

fn answer(bench: &mut Bench, call: Call) -> Answered {
    let answer = match call {
        Call::Release { place, demand } => bench.release(place, demand).map(|()| Vec::new()),
        Call::Tick => bench.tick(),
        Call::Run { ticks } => {
            run(bench, ticks);
            Ok(Vec::new())
        }
    };
    let (number, place, finished) = match answer {
        Ok(finished) => (0, 0, finished),
        Err(refusal) => (refusal.number, refusal.place, Vec::new()),
    };
    let broken = if number == 29 {
        bench.broken()
    } else {
        Vec::new()
    };
    Answered {
        call,
        number,
        place,
        finished,
        broken,
    }
}

/// A refused tick changes nothing, so the others go on.
pub fn run(bench: &mut Bench, ticks: u64) {
    for _ in 0..ticks {
        let _ = bench.tick();
    }
}

const RELEASES: &str = "releases answered, by number";
const TICKS: &str = "ticks answered, by number";
const RUNS: &str = "runs";
const POLLS: &str = "polls ended";
const LONG_POLLS: &str = "polls ended, response above 65,535";
const LONG_RESPONSE: u64 = 65_535;

const TABLE: &str = "29, only a table failing 1 to 6, by number";
const INSTANT: &str = "29, only an instant above 1,000,000,000";
const LAST_RELEASE: &str = "29, only a last release after the instant";
const DEMAND: &str = "29, only a released demand above C";
const REMAINDER: &str = "29, only a remainder above the demand";
const NEVER_RELEASED: &str = "29, only work on a row never released";

fn required() -> Vec<Entry> {
    let mut entries = numbered(RELEASES, &[0, 20, 21, 22, 23, 29]);
    entries.extend(numbered(TICKS, &[0, 24, 29]));
    entries.extend(numbered(TABLE, &[1, 2, 3, 4, 5, 6]));
    let names = [
        INSTANT,
        LAST_RELEASE,
        DEMAND,
        REMAINDER,
        NEVER_RELEASED,
        RUNS,
        POLLS,
        LONG_POLLS,
    ];
    entries.extend(names.map(|name| (name, None)));
    entries
}

fn count(tally: &mut Tally, answered: &Answered) {
    let number = u64::from(answered.number);
    match answered.call {
        Call::Release { .. } => tally.add_number(RELEASES, number),
        Call::Tick => tally.add_number(TICKS, number),
        Call::Run { .. } => tally.add(RUNS),
    }
    for finish in &answered.finished {
        tally.add(POLLS);
        if finish.response > LONG_RESPONSE {
            tally.add(LONG_POLLS);
        }
    }
    if answered.number == 29 {
        tally.add_times(clause(&answered.broken), 1);
    }
}

/// The clause of number 29 where the bench breaks no other one.
fn clause(broken: &[Clause]) -> Entry {
    let first = broken[0];
    if broken.iter().any(|&other| other != first) {
        return ("29, several clauses", None);
    }
    match first {
        Clause::Table(number) => (TABLE, Some(u64::from(number))),
        Clause::Instant => (INSTANT, None),
        Clause::LastRelease => (LAST_RELEASE, None),
        Clause::Demand => (DEMAND, None),
        Clause::Remainder => (REMAINDER, None),
        Clause::NeverReleased => (NEVER_RELEASED, None),
    }
}
