//! Keeping tickets right while a log is made small: a report whose ticket was the
//! live one is given the one that is live where it stands now.

use crate::input::{self, Event, TICKET};
use crate::model::Record;
use crate::program::Told;
use crate::replay::run;

/// Which events are reports with the live ticket.
pub fn right(events: &[Event], told: &Told) -> Vec<bool> {
    let mut record = Record::opened(told.opening, told.length);
    let with_live = |event: &Event| {
        input::read(event).map_or(false, |call| {
            let right = call.ticket().is_some() && call.ticket() == record.live;
            run(&mut record, &call);
            right
        })
    };
    events.iter().map(with_live).collect()
}

/// The events, those that are marked with the ticket that is live then.
pub fn retuned(events: &[(Event, bool)], told: &Told) -> Vec<Event> {
    let mut record = Record::opened(told.opening, told.length);
    let mut retune = |(mut event, right): (Event, bool)| {
        if let Some(live) = record.live.filter(|_| right) {
            event[TICKET] = live.number;
        }
        if let Ok(call) = input::read(&event) {
            run(&mut record, &call);
        }
        event
    };
    events.iter().map(|marked| retune(*marked)).collect()
}
