//! The limits and widths of document 01, and those that document 02 adds, each stated once.

/// Most symbols of a set ("Sets").
pub const MAX_SYMBOLS: usize = 64;
/// Most children of a symbol ("Sets").
pub const MAX_CHILDREN: usize = 4;
/// Most states of a set ("Sets").
pub const MAX_STATES: usize = 256;
/// Most tags of a set (document 02, Wish 2).
pub const MAX_TAGS: usize = 16;
/// Most tags of a set that stores a state's tags in one byte ("Sets").
pub const MAX_NARROW_TAGS: usize = 8;
/// Most rules of a set ("Sets").
pub const MAX_RULES: usize = 1024;

/// Most rows of a document ("Documents").
pub const MAX_ROWS: usize = 1024;
/// Most levels of a document ("Documents").
pub const MAX_LEVELS: usize = 256;

/// Most steps of a written run ("Runs").
pub const MAX_STEPS: usize = 4096;
/// Most annotations for which there can be room ("Runs").
pub const MAX_ROOM: usize = 4096;

/// Most bytes of a name ("Term text").
pub const MAX_NAME_BYTES: usize = 16;
/// Most lines of a name list ("Turned away, by place", 61).
pub const MAX_LIST_LINES: usize = 64;
/// Most bytes that a program takes from its input ("Turned away, by place", 69).
pub const MAX_PROGRAM_INPUT: usize = 32_768;

/// Most lines of a key list (document 02, Wish 1).
pub const MAX_KEYS: usize = 56;
/// Most bytes of a line of a key list (document 02, Wish 1).
pub const MAX_KEY_BYTES: usize = 64;
/// Most digits of a JSON number that is no count (document 02, Wish 1).
pub const MAX_RATE_DIGITS: usize = 15;

/// What stands in a child place or step place that is not used.
pub const UNUSED: u16 = 65_535;

/// Bytes of a stored set's header: eight 16-bit numbers.
pub const HEADER_BYTES: usize = 16;
/// Bytes of a stored state's tags, behind its final byte ("Sets").
pub const NARROW_TAG_BYTES: usize = 1;
/// Bytes of a stored state's tags in the wide form (document 02, Wish 2).
pub const WIDE_TAG_BYTES: usize = 2;
/// Bytes of a stored rule without tags to forget: six 16-bit numbers.
pub const RULE_BYTES: usize = 12;
/// Bytes of a stored rule's tags to forget, behind its six numbers (document 02, Wish 9).
pub const FORGETS_BYTES: usize = 2;

/// 16-bit cells of a row: symbol, four child places, kind, four cells of payload.
pub const ROW_CELLS: usize = 10;
/// 16-bit cells of a step: rule, row, four step places.
pub const STEP_CELLS: usize = 6;
/// 16-bit cells of work space that make room for one annotation.
pub const ANNOTATION_CELLS: usize = 32;
