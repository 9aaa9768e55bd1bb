//! A replay beside a script of the same calls.
//!
//! Written from documents 01 and 02 and the page on the driver's script alone.

use super::{play, record_after};
use crate::input::{self, Event};
use crate::input::{ACTIONS, CANDIDATE, CODE, KIND, OUTCOME, RECOVERY, SNAPSHOT, TICKET};
use crate::line;
use crate::model::Name;
use crate::program::words_of;
use crate::recording::{sound, Recording};
use crate::replay::program;
use crate::sizes::{ACTION, HELD_AREA, HELD_TABLE};

/// The line of an event. What is longer than a script can say is as long as it can
/// say, which is too long as well.
fn line_of(event: &Event) -> String {
    let name = Name::of_kind(event[KIND]).expect("a kind");
    let payload = |at: usize| format!("{}:0", event[at].min(HELD_AREA));
    let report = line::join(&[event[TICKET], event[OUTCOME], event[CODE]]);
    let payloads = format!("{} {}", payload(CANDIDATE), payload(RECOVERY));
    let words = match name {
        Name::Begin | Name::BeginStructural => {
            let pairs = ACTION * event[ACTIONS].min(HELD_TABLE / ACTION);
            format!(" {} {}:0", payloads, pairs)
        }
        Name::ReportStructure => format!(" {} {}", report, payloads),
        Name::ReportUpdate | Name::ReportRollback => format!(" {} 0", report),
        Name::Recover | Name::Refresh => format!(" {}", event[SNAPSHOT]),
        _ => String::new(),
    };
    format!("{}{}", name.word(), words)
}

fn script(recording: &Recording, events: u64) -> Vec<String> {
    let words = words_of(&recording.bytes).expect("whole words");
    let mut lines = vec![line::open(recording.opening, &format!("{}:0", recording.length))];
    lines.extend((0..events).map(|number| line_of(&input::event(&words, number))));
    lines
}

/// The answers have the same numbers, and the record is the same.
#[test]
fn a_replay_answers_as_a_script() {
    for seed in 0..10 {
        let recording = sound(seed, 400);
        let lines = script(&recording, 400);
        let played = program::play(&recording.bytes, &recording.told());
        let answers = play(&lines).into_iter().skip(1);
        let numbers = answers.map(|answer| answer.split(' ').next().map(|word| word.parse()));
        let replayed = played.ran.iter().map(|(_, answer)| Some(Ok(*answer)));
        assert!(numbers.eq(replayed), "seed {}", seed);
        assert_eq!(record_after(&lines), played.record);
    }
}
