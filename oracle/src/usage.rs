//! How the program `oracle` is used.

pub const USAGE: &str = "usage:
  oracle play < SCRIPT       plays a script and prints the answers
  oracle make SEED CALLS     prints a seeded random script of about CALLS calls
  oracle table SEED CALLS    counts such a script's answers, call by call
  oracle start               prints the lines that lend what the driver lends at
                             its start, and that open
  oracle boundary            prints the fixed script of boundary cases
  oracle limits              prints its part on lengths, actions, serials, the
                             count of replacements and the tail table
  oracle sweep               prints the fixed script of all small records
  oracle reach               prints a short script that reaches every call with
                             every answer, through a log and without one
  oracle compare FIRST SEEDS CALLS DRIVER [WORD ..]
                             plays the fixed scripts and those of SEEDS seeds
                             from FIRST on, here and by the program DRIVER,
                             and tells the first difference, made small
  oracle replay FILE [REVISION [SERIAL [REPLACEMENTS [LENGTH [PORTION]]]]]
                             replays the input log in FILE, in portions of
                             PORTION events, over a record that is opened at
                             these numbers, and prints the answers
  oracle audit FILE [REVISION [SERIAL [REPLACEMENTS [LENGTH]]]]
                             asks about the record after the first 0, 1, 2 ..
                             events of the input log in FILE, and prints how many
                             events, the phase, whether a commit and a recovery
                             are allowed, the due asking and the revision
  oracle log SEED [EVENTS]   writes a seeded random input log; one of EVENTS
                             events, at most 1024, has no fault
  oracle opening SEED [EVENTS]
                             prints the first four numbers that it is meant for
  oracle log tour            writes the input log of the tour, which meets all
                             that an audit answers
  oracle opening tour        prints the four numbers that it is meant for
  oracle example             writes the input log of the example, a reload that
                             is taken back and one that goes through
  oracle compare-replays FIRST SEEDS PROGRAM [WORD ..]
                             replays the fixed input logs and those of SEEDS
                             seeds from FIRST on, here and by PROGRAM, and
                             tells the first difference, made small
  oracle compare-audits FIRST SEEDS PROGRAM [WORD ..]
                             audits the same input logs likewise
SEED, CALLS, FIRST, SEEDS and EVENTS are numbers from 0 to 18446744073709551615.";
