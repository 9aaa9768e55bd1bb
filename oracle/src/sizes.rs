//! Every limit and size of documents 01 and 02 and of the page on the driver's
//! script, by name.
//!
//! Written from those three alone.

/// The largest u64: no begin is made at this revision, no settings are replaced
/// at this count of replacements, and no serial is given past it.
pub const TOP: u64 = u64::MAX;

/// Bytes of an area; a payload is at most as long.
pub const AREA: u64 = 4096;
/// The most actions of a begin.
pub const MAX_ACTIONS: u64 = 64;
/// Words of an action: its identity and its payload.
pub const ACTION: u64 = 2;
/// Words of the table of actions.
pub const TABLE: u64 = ACTION * MAX_ACTIONS;

/// Words of the log's head, and so the offset of its first event.
pub const LOG_HEAD: u64 = 4;
/// Words of an event.
pub const EVENT: u64 = 4;
/// The most events that a log has room for.
pub const ROOM_MOST: u64 = 1024;
/// The fewest words of a log: it has room for one event.
pub const LOG_LEAST: u64 = LOG_HEAD + EVENT;
/// The most words of a log.
pub const LOG_MOST: u64 = LOG_HEAD + EVENT * ROOM_MOST;

/// Words of an event of the input log, which has the log's head.
pub const INPUT_EVENT: u64 = 8;
/// The most words of an input log.
pub const INPUT_MOST: u64 = LOG_HEAD + INPUT_EVENT * ROOM_MOST;
/// Bytes of a word in a file.
pub const WORD_BYTES: u64 = 8;
/// The most bytes of a file that holds an input log.
pub const FILE_MOST: u64 = WORD_BYTES * INPUT_MOST;
/// How many events a portion has where it is not said.
pub const PORTION: u64 = ROOM_MOST;

/// The most ids of the group and status bytes.
pub const IDS_MOST: u64 = 256;

/// Words of a tail record: device, inode and offset.
pub const TAIL: u64 = 3;
/// The most words of the tail table.
pub const TAILS_MOST: u64 = 768;

/// Bytes that the driver holds of each area.
pub const HELD_AREA: u64 = 5000;
/// Words that it holds of the table.
pub const HELD_TABLE: u64 = 2200;
/// Words that it holds of the log.
pub const HELD_LOG: u64 = 5000;
/// Bytes that it holds of groups and of status.
pub const HELD_IDS: u64 = 300;
/// Bytes of groups and of status that are lent at the start.
pub const LENT_IDS: u64 = 64;
/// Words that it holds of the tail table.
pub const HELD_TAILS: u64 = 800;

/// The most bytes of a line.
pub const LINE_MOST: u64 = 1000;
/// The largest seed of a payload or of words.
pub const SEED_MOST: u64 = 1_000_000;
/// The largest byte.
pub const BYTE_MOST: u64 = 255;
/// What each field of a record takes at least.
pub const FIELD_MOST: u64 = 255;
/// What its lengths and counts take at least.
pub const COUNT_MOST: u64 = 65_535;
