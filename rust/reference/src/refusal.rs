//! The refusals by number ("In checking order").

/// "The id bytes aren't 32 for each time, or the items exceed 1,048,576."
pub const TABLE_SIZE: u8 = 1;
/// "An item isn't above its predecessor, or a time is 2^64−1."
pub const TABLE_ORDER: u8 = 2;
/// "b or t is outside its limits."
pub const CUT: u8 = 3;
/// Marks, needed buffer, counts or needed ids that don't fit together.
pub const REPORT: u8 = 4;
/// "A take meets a session that is done."
pub const DONE: u8 = 5;
/// "The message is empty or its first byte isn't 61."
pub const VERSION: u8 = 6;
/// "The message ends inside a range."
pub const ENDS_EARLY: u8 = 7;
/// "A varint starts with 80 or passes 2^64−1."
pub const VARINT: u8 = 8;
/// A bound's time, prefix length or order.
pub const BOUND: u8 = 9;
/// "A mode is above 2."
pub const MODE: u8 = 10;
/// "The needed list that would result has more ids than its buffer holds."
pub const NEEDED_ROOM: u8 = 11;
/// "The message to be written is longer than the out buffer."
pub const OUT_ROOM: u8 = 12;
/// "The tree isn't 40 × (2^(k+1) − 1) bytes or an append finds no place free". It comes "after 2".
pub const TREE: u8 = 13;
/// "A limit below 4,096". It comes "after 3".
pub const BYTES: u8 = 14;
/// "The session isn't done". It comes "after 5".
pub const NOT_DONE: u8 = 15;
/// "A batch id isn't on the needed list or its item is already in the table". It comes "after 15".
pub const NOT_DUE: u8 = 16;
/// "The table's buffers can't hold the merge or it passes 1,048,576 items". It comes "in the place of 11".
pub const TABLE_ROOM: u8 = 17;
/// "The table's label isn't the session's", for a take only. It comes "after 4".
pub const OTHER_TABLE: u8 = 18;
