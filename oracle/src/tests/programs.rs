//! What the program that replays a file writes, and which words it takes.
//!
//! Written from documents 01 and 02 and the page on the driver's script alone.

use crate::model::{Name, Opening};
use crate::program::{Program, Told};
use crate::recording::{self, bytes, event, full, log_of};
use crate::sizes::{AREA, FILE_MOST, PORTION, TOP};

const REPLAY: Program = Program::Replay;

/// What is written of a file's bytes with these words after its name.
fn written(bytes: &[u8], words: &[&str]) -> String {
    REPLAY.text(bytes, &REPLAY.told(words).expect("numbers"))
}

/// The record of an opening at these numbers, as it is shown.
const OPENED: &str = "record 7 40 300 0 0 0 0 0 0 0 0 0 0 0 0 2\n";
const NUMBERS: [&str; 4] = ["7", "40", "2", "300"];

/// "a line for each event that was run, in order: its number counted from 0, the
/// name of its call as in a script, the answer's number; then `ended 0 RAN`"
#[test]
fn the_lines_of_the_page() {
    let events = [[1, 0, 0, 0, 1, 5, 6, 0], [5, 0, 0, 0, 0, 0, 0, 0], [6, 1, 2, 0, 0, 0, 0, 0]];
    let text = "0 begin 0\n1 ask-update 20\n2 report-update 24\nended 0 3\n\
                record 0 1 0 5 6 1 0 0 0 1 1 1 0 0 0 0\n";
    assert_eq!(written(&bytes(&full(&events)), &[]), text);
}

/// "`ended 17 NUMBER` where the event NUMBER is bad"
#[test]
fn a_bad_event_is_named() {
    let good = event(Name::AskRollback, &[]);
    let file = bytes(&log_of(2, 3, &[good, [0; 8], good]));
    for portion in ["1", "2", "1024"] {
        let text = written(&file, &[&NUMBERS[..], &[portion]].concat());
        let ended = "0 ask-rollback 24\nended 17 1\nrecord 7 40 300 0 0 0 0 0 0 0 0 0 1 0 0 2\n";
        assert_eq!(text, ended);
    }
}

/// "`ended 6` or `ended 7` where the log is refused (`ended 6` too where the
/// file's size is not a multiple of 8 or is over 65,568 bytes)"
#[test]
fn a_log_that_is_refused() {
    let sound = bytes(&log_of(0, 1024, &[]));
    assert_eq!(sound.len() as u64, FILE_MOST);
    assert_eq!(FILE_MOST, 65_568);
    assert_eq!(written(&sound, &NUMBERS), format!("ended 0 0\n{}", OPENED));
    for size in [0, 1, 8, 95, 97, 104, FILE_MOST - 1, FILE_MOST + 1, FILE_MOST + 8] {
        let mut file = sound.clone();
        file.resize(size as usize, 0);
        assert_eq!(written(&file, &NUMBERS), format!("ended 6\n{}", OPENED), "{} bytes", size);
    }
    let broken = bytes(&log_of(2, 1, &[]));
    assert_eq!(written(&broken, &NUMBERS), format!("ended 7\n{}", OPENED));
}

/// "or `ended 16` where the opening is refused (this is looked at first)"
#[test]
fn an_opening_that_is_refused() {
    let nothing = "ended 16\nrecord 0 0 0 0 0 0 0 0 0 0 0 0 0 0 0 0\n";
    for length in [AREA + 1, TOP] {
        let words = ["7", "40", "2", &length.to_string()];
        for file in [bytes(&full(&[])), bytes(&log_of(2, 1, &[])), vec![]] {
            assert_eq!(written(&file, &words), nothing);
        }
    }
    let longest = written(&bytes(&full(&[])), &["7", "40", "2", &AREA.to_string()]);
    assert_eq!(longest, "ended 0 0\nrecord 7 40 4096 0 0 0 0 0 0 0 0 0 0 0 0 2\n");
}

/// "with fewer words the missing ones are 0, 0, 0, 0 and 1024"
#[test]
fn words_that_are_missing() {
    let numbers = [7, 40, 2, 300, 3];
    let words = numbers.map(|number| number.to_string());
    for count in 0..=numbers.len() {
        let mut wanted = [0, 0, 0, 0, PORTION];
        wanted[..count].copy_from_slice(&numbers[..count]);
        assert_eq!(REPLAY.told(&words[..count]), Ok(Told::of_numbers(wanted)));
    }
    assert_eq!(PORTION, 1024);
}

/// "A file that cannot be read, a word that is no number, a word too many or a
/// PORTION of 0 is told"
#[test]
fn words_that_are_wrong() {
    for word in ["", " ", "x", "-1", "+1", "1 ", " 1", "0x1", "18446744073709551616", "1\n"] {
        for at in 0..5 {
            let mut words = vec!["1"; 5];
            words[at] = word;
            assert!(REPLAY.told(&words).is_err(), "{:?} at {}", word, at);
        }
    }
    assert!(REPLAY.told(&["1", "1", "1", "1", "0"]).is_err());
    assert!(REPLAY.told(&["1"; 6]).is_err());
    let told = REPLAY.told(&["007", "18446744073709551615", "0018446744073709551615"]);
    let opening = Opening { revision: 7, serial: TOP, replacements: TOP };
    assert_eq!(told, Ok(Told { opening, length: 0, portion: PORTION }));
    assert!(REPLAY.run(&[]).is_err());
    assert!(REPLAY.run(&["/no/such/file".to_string()]).is_err());
    assert!(REPLAY.run(&["/".to_string()]).is_err());
}

/// The files of examples/ are what the oracle makes and writes.
#[test]
fn the_example_is_kept() {
    let example = recording::example();
    assert_eq!(&example.bytes[..], include_bytes!("../../../examples/reload.log"));
    let numbers = include_str!("../../../examples/reload.args");
    assert!(numbers.starts_with(&example.numbers()));
    let words: Vec<&str> = numbers.split_whitespace().collect();
    assert_eq!(written(&example.bytes, &words), include_str!("../../../examples/reload.answers"));
}
