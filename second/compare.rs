// The comparison, the same for each kind of case: a child program answers the same cases, and each
// answer has to be the same bytes.

use std::io::{stdin, stdout, BufReader, BufWriter, Error, ErrorKind, Read, Result, Write};
use std::process::{Child, ChildStdin, ChildStdout, Command, Stdio};
use std::sync::mpsc::{channel, Receiver, Sender};
use std::thread;

use crate::frames::{read_frame, write_frame};
use crate::tally::{Entry, Tally};

/// What is compared: the cases of a kind, what answers them, and what has to occur among them.
pub trait Kind {
    /// The words of its commands: the comparison, the cases as frames, the answers.
    const NAME: &'static str;
    const FRAMES: &'static str;
    const ANSWERS: &'static str;
    /// Whether an answer has its length in front. One without is as long as it should be.
    const ANSWERS_FRAMED: bool = true;
    /// What the case comes to, before it is put into bytes.
    type Own;

    /// Sent first, whatever the seed.
    fn fixed() -> Vec<Vec<u8>>;
    /// Made from a seed and an index.
    fn random(seed: u64, index: u64) -> Vec<u8>;
    fn own(case: &[u8]) -> Self::Own;
    fn bytes(own: &Self::Own) -> Vec<u8>;
    fn required() -> Vec<Entry>;
    fn count(tally: &mut Tally, own: &Self::Own);

    fn show(answer: &[u8]) -> String {
        hex(answer)
    }

    fn cases(seed: u64, count: u64) -> Box<dyn Iterator<Item = Vec<u8>>> {
        let random = move |index| Self::random(seed, index);
        Box::new(Self::fixed().into_iter().chain((0..count).map(random)))
    }
}

/// Compares the fixed cases and `count` more and prints what came of it; whether all were the same.
pub fn compare<K: Kind>(seed: u64, count: u64, program: &str, arguments: &[String]) -> bool {
    let mut child = match start(program, arguments) {
        Ok(child) => child,
        Err(error) => return complain(&format!("{program} does not start: {error}")),
    };
    let same = exchange::<K>(seed, count, &mut child);
    if same.is_none() {
        let _ = child.kill();
    }
    let ended_well = child.wait().is_ok_and(|status| status.success());
    match same {
        Some((tally, compared)) if ended_well => conclude(K::NAME, &tally, compared),
        Some(_) => complain("the program did not end well"),
        None => false,
    }
}

/// The last lines of a comparison in which nothing differed. An outcome that never occurred was not
/// compared, so the comparison fails.
pub fn conclude(name: &str, tally: &Tally, compared: usize) -> bool {
    tally.print();
    if let Some(names) = tally.missing() {
        return complain(&format!("{name}: never occurred: {names}"));
    }
    println!("{name}: {compared} compared, 0 differ");
    true
}

pub fn start(program: &str, arguments: &[String]) -> Result<Child> {
    Command::new(program)
        .args(arguments)
        .stdin(Stdio::piped())
        .stdout(Stdio::piped())
        .spawn()
}

pub fn complain(what: &str) -> bool {
    println!("{what}");
    false
}

/// The cases go out from a thread of their own, so that neither pipe fills up and stops both sides.
fn exchange<K: Kind>(seed: u64, count: u64, child: &mut Child) -> Option<(Tally, usize)> {
    let (input, output) = (child.stdin.take()?, child.stdout.take()?);
    let (sender, cases) = channel();
    thread::spawn(move || send(K::cases(seed, count), input, sender));
    compare_answers::<K>(cases, BufReader::new(output))
}

/// Each case goes to the child and to the comparison. When the child takes no more, its missing
/// answers are noticed where they are read.
fn send(cases: impl Iterator<Item = Vec<u8>>, input: ChildStdin, sender: Sender<Vec<u8>>) {
    let mut input = BufWriter::new(input);
    for case in cases {
        let _ = write_frame(&mut input, &case);
        if sender.send(case).is_err() {
            return;
        }
    }
    let _ = input.flush();
}

/// Nothing if an answer differs or is missing, or if there is more than the answers.
fn compare_answers<K: Kind>(
    cases: Receiver<Vec<u8>>,
    mut output: BufReader<ChildStdout>,
) -> Option<(Tally, usize)> {
    let mut tally = Tally::requiring(&K::required());
    let mut compared = 0;
    for case in cases {
        let own = K::own(&case);
        let wanted = K::bytes(&own);
        let given = match read_answer::<K>(wanted.len(), &mut output) {
            Ok(given) => given,
            Err(error) => {
                complain(&format!("answer {compared} cannot be read: {error}"));
                return None;
            }
        };
        if given != wanted {
            show_difference::<K>(compared, &case, &wanted, &given);
            return None;
        }
        K::count(&mut tally, &own);
        compared += 1;
    }
    if output.bytes().next().is_some() {
        complain("the program goes on after its last answer");
        return None;
    }
    Some((tally, compared))
}

fn read_answer<K: Kind>(length: usize, output: &mut BufReader<ChildStdout>) -> Result<Vec<u8>> {
    if K::ANSWERS_FRAMED {
        let ended = || Error::new(ErrorKind::UnexpectedEof, "the program has ended");
        return read_frame(output)?.ok_or_else(ended);
    }
    let mut answer = vec![0; length];
    output.read_exact(&mut answer)?;
    Ok(answer)
}

fn show_difference<K: Kind>(index: usize, case: &[u8], own: &[u8], given: &[u8]) {
    println!("{}: case {index} differs, {} bytes", K::NAME, case.len());
    println!("{}", hex(case));
    println!("own answer:\n{}", K::show(own));
    println!("program's answer:\n{}", K::show(given));
}

pub fn hex(bytes: &[u8]) -> String {
    bytes.iter().map(|byte| format!("{byte:02X}")).collect()
}

/// Writes the cases as frames to standard output.
pub fn write_cases<K: Kind>(seed: u64, count: u64) -> Result<()> {
    let mut out = BufWriter::new(stdout());
    for case in K::cases(seed, count) {
        write_frame(&mut out, &case)?;
    }
    out.flush()
}

/// Reads cases as frames from standard input and writes the answers.
pub fn write_answers<K: Kind>() -> Result<()> {
    let mut input = BufReader::new(stdin());
    let mut out = BufWriter::new(stdout());
    while let Some(case) = read_frame(&mut input)? {
        let answer = K::bytes(&K::own(&case));
        if K::ANSWERS_FRAMED {
            write_frame(&mut out, &answer)?;
        } else {
            out.write_all(&answer)?;
        }
    }
    out.flush()
}
