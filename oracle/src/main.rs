//! `oracle`: plays scripts of calls and input logs as documents 01 and 02 say
//! they answer, audits such logs, and makes scripts and logs.
//!
//! Written from those two and the page on the driver's script alone.

mod usage;

use oracle::compare::logs::{self, Subject};
use oracle::compare::{audits, replays};
use oracle::program::Program;
use oracle::recording::{self, Recording};
use oracle::{boundary, compare, make, reach};
use std::io::{self, BufWriter, Write};
use std::process::ExitCode;
use usage::USAGE;

/// How a command ended.
enum End {
    Well,
    Differs,
    Unknown,
    Wrong(String),
}

fn make(seed: u64, calls: u64, output: &mut dyn Write) -> io::Result<()> {
    make::make(seed, calls, output, &mut |_| {})
}

/// The recording of a seed, that of a seed and a number of events, or the tour.
fn recording(words: &[String]) -> Option<Recording> {
    let numbers: Option<Vec<u64>> = words.iter().map(|word| word.parse().ok()).collect();
    match numbers.as_deref() {
        Some([seed]) => Some(recording::seeded(*seed)),
        Some([seed, events]) if *events <= recording::EVENTS_MOST => {
            Some(recording::sound(*seed, *events))
        }
        None if words == ["tour"] => Some(recording::tour()),
        _ => None,
    }
}

/// Does what the words ask of scripts.
fn obey(words: &[String], output: &mut dyn Write) -> io::Result<End> {
    let name = words.first().map_or("", |word| word.as_str());
    let numbers: Vec<u64> = words.iter().skip(1).map_while(|word| word.parse().ok()).collect();
    match (name, words.len(), &numbers[..]) {
        ("play", 1, _) => oracle::play(&mut io::stdin().lock(), output)?,
        ("start", 1, _) => boundary::start(output)?,
        ("boundary", 1, _) => boundary::boundary(output)?,
        ("limits", 1, _) => boundary::limits(output)?,
        ("sweep", 1, _) => boundary::sweep(output)?,
        ("reach", 1, _) => reach::reach(output)?,
        ("make", 3, [seed, calls]) => make(*seed, *calls, output)?,
        ("table", 3, [seed, calls]) => oracle::table(*seed, *calls, output)?,
        ("compare", count, [first_seed, seeds, calls, ..]) if count >= 5 => {
            let (first_seed, seeds, calls) = (*first_seed, *seeds, *calls);
            let plan = compare::Plan { first_seed, seeds, calls, driver: &words[4..] };
            return Ok(if compare::compare(&plan, output)? { End::Well } else { End::Differs });
        }
        _ => return obey_of_logs(name, &words[words.len().min(1)..], &numbers, output),
    }
    Ok(End::Well)
}

/// Does what the words after the first ask of input logs.
fn obey_of_logs(
    name: &str,
    words: &[String],
    numbers: &[u64],
    output: &mut dyn Write,
) -> io::Result<End> {
    if let Some(program) = Program::ALL.into_iter().find(|program| program.word() == name) {
        return match program.run(words) {
            Ok(text) => output.write_all(text.as_bytes()).map(|()| End::Well),
            Err(wrong) => Ok(End::Wrong(wrong)),
        };
    }
    match (name, recording(words)) {
        ("compare-replays", _) => {
            return compare_logs(&mut replays::Totals::default(), words, numbers, output)
        }
        ("compare-audits", _) => {
            return compare_logs(&mut audits::Totals::default(), words, numbers, output)
        }
        ("example", _) if words.is_empty() => output.write_all(&recording::example().bytes)?,
        ("log", Some(recording)) => output.write_all(&recording.bytes)?,
        ("opening", Some(recording)) => writeln!(output, "{}", recording.numbers())?,
        _ => return Ok(End::Unknown),
    }
    Ok(End::Well)
}

fn compare_logs(
    subject: &mut dyn Subject,
    words: &[String],
    numbers: &[u64],
    output: &mut dyn Write,
) -> io::Result<End> {
    let (first_seed, seeds) = match *numbers {
        [first_seed, seeds, ..] if words.len() >= 3 => (first_seed, seeds),
        _ => return Ok(End::Unknown),
    };
    let plan = logs::Plan { first_seed, seeds, other: &words[2..] };
    Ok(if logs::compare(&plan, subject, output)? { End::Well } else { End::Differs })
}

fn main() -> ExitCode {
    let words: Vec<String> =
        std::env::args_os().skip(1).map(|word| word.to_string_lossy().into_owned()).collect();
    let mut output = BufWriter::with_capacity(1 << 16, io::stdout());
    let ended = obey(&words, &mut output).and_then(|end| output.flush().map(|()| end));
    match ended {
        Ok(End::Well) => ExitCode::SUCCESS,
        Ok(End::Differs) => ExitCode::FAILURE,
        Ok(End::Unknown) => {
            eprintln!("{}", USAGE);
            ExitCode::from(2)
        }
        Ok(End::Wrong(wrong)) => {
            eprintln!("oracle: {}\n{}", wrong, USAGE);
            ExitCode::from(2)
        }
        Err(error) if error.kind() == io::ErrorKind::BrokenPipe => ExitCode::SUCCESS,
        Err(error) => {
            eprintln!("oracle: {}", error);
            ExitCode::FAILURE
        }
    }
}
