// The codes of document 01.

// Kinds.
pub const CERTAIN: u8 = 0;
pub const OPEN: u8 = 1;
pub const COMPLETE: u8 = 2;
pub const CLOSED: u8 = 3;

// Aggregates.
pub const COUNT: u8 = 0;
pub const SUM: u8 = 1;
pub const MIN: u8 = 2;
pub const MAX: u8 = 3;

// Relations.
pub const EQ: u8 = 0;
pub const NE: u8 = 1;
pub const LT: u8 = 2;
pub const LE: u8 = 3;
pub const GT: u8 = 4;
pub const GE: u8 = 5;
