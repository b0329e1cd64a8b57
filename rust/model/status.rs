//! "Status numbers (type x 256 + code)".

pub const SUCCESS: u16 = 0x0000;
pub const INVALID_OPCODE: u16 = 0x0001;
pub const INVALID_FIELD: u16 = 0x0002;
pub const TOO_MANY_REQUESTS: u16 = 0x0105;
pub const INVALID_LOG_PAGE: u16 = 0x0109;
pub const NOT_SAVEABLE: u16 = 0x010D;
pub const UNKNOWN_SET: u16 = 0x07C0;
pub const TOO_EARLY: u16 = 0x07C1;
pub const TOO_SHORT: u16 = 0x07C2;
pub const BAD_TABLE: u16 = 0x07C3;
pub const BAD_SET_UP: u16 = 0x07C4;
pub const LONG_TICK: u16 = 0x07C5;
pub const BAD_COMMAND: u16 = 0x07C7;
/// "each answered 07C8h (waiting, no refusal)".
pub const WAITING: u16 = 0x07C8;

/// Every number that 01 and 02 know.
pub const ALL: [u16; 14] = [
    SUCCESS,
    INVALID_OPCODE,
    INVALID_FIELD,
    TOO_MANY_REQUESTS,
    INVALID_LOG_PAGE,
    NOT_SAVEABLE,
    UNKNOWN_SET,
    TOO_EARLY,
    TOO_SHORT,
    BAD_TABLE,
    BAD_SET_UP,
    LONG_TICK,
    BAD_COMMAND,
    WAITING,
];

/// Whether what has this number was refused, and has written nothing.
pub fn is_refusal(number: u16) -> bool {
    number != SUCCESS && number != WAITING
}
