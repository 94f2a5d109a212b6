//! The refusal numbers: document 01, "What reception says when it turns you away", and what document 02 adds to its table.

/// Why a call is refused; the value is the documents' number.
#[derive(Clone, Copy, Debug, PartialEq, Eq)]
#[repr(u64)]
pub enum Refusal {
    /// "wrong key": key not 32 bytes; of a key store, the season's or the stay's (S-6).
    KeyLength = 1,
    /// "wrong stay number": IV not 16 bytes.
    IvLength = 2,
    /// "book full": associated data over 65,535 bytes or text over 1,048,576, counted over the session; of a scheduler, no text or
    /// over 1,048,576 bytes at joining, and a piece of another length than the one due (S-10).
    TooLong = 3,
    /// "short page": lent output shorter than what must be written; a key store without an empty block (S-6).
    ShortOutput = 4,
    /// "seal broken": tag differs.
    BadTag = 5,
    /// "not ours": no IV and mode lead to this state; at resume, none in sealed mode; of a search, at no count in its range (S-8).
    NoOrigin = 6,
    /// "late entry": call out of phase.
    OutOfPhase = 7,
    /// "torn block": a suspended block breaks a layout rule; a key store does, or has a number twice (S-6); a dump is not 112 bytes (S-8);
    /// a scheduler is not 8,208 bytes; for C, a session or a state has another length.
    BadBlock = 8,
    /// "too far": block count over 65,538; a step, run or piece of text that would lead past it (S-2); the highest of a range (S-8); a turn
    /// past 2^62 (S-10).
    CountTooHigh = 9,
    /// "cut seal": tag not 16 bytes.
    TagLength = 10,
    /// "unreadable": input of the program malformed; no call of the header gives it.
    Malformed = 11,
    /// "no such day": day outside 0 to 73,048; a date that is lacking or outside 2000 to 2199 (S-4).
    DayRange = 12,
    /// A page file's length, a place in it, a stored length, a stored day or the padding is not as document 02 has it (S-1).
    BadFile = 13,
    /// The stay named lacks the page named, or its pages do not run 0, 1, 2 in file order, or they hold different days (S-1).
    BadStay = 14,
    /// A step or run back past the start, where the count is 0 (S-2).
    BeforeStart = 15,
    /// A key is to be stored for a number that the key store has, held or erased (S-6); a stay is to join whose number is there (S-10).
    NumberTaken = 16,
    /// A number that the key store has not, or has erased, is to be fetched or erased (S-6).
    NoKey = 17,
    /// A range whose lowest count is above its highest (S-8).
    RangeOrder = 18,
    /// A stay is to join a scheduler that has 32 (S-10).
    SchedulerFull = 19,
}

/// What a call answers: 0 if accepted, else the number of the refusal.
pub fn number<T>(answer: &Result<T, Refusal>) -> u64 {
    match answer {
        Ok(_) => 0,
        Err(refusal) => *refusal as u64,
    }
}

/// Refuses for `refusal` unless `condition` holds.
pub fn require(condition: bool, refusal: Refusal) -> Result<(), Refusal> {
    if condition {
        Ok(())
    } else {
        Err(refusal)
    }
}
