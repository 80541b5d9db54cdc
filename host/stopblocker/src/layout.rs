//! The bytes of board, part, record and answer buffer: every size, offset and limit of docs/LAYOUT.md, once.
//!
//! All numbers are little-endian. A word is four bytes; a signed word is in two's complement. The C header has the same
//! names with `SB_` and the module's name before them: `part::CLOCK` is `SB_PART_CLOCK`.

/// A board: a head, then a part for each disk. All zeros is the empty board.
pub const BOARD_BYTES: usize = 49_216;
/// The head of a board.
pub const HEAD_BYTES: usize = 64;
/// The first bytes of the head, with one bit for each disk, set when the disk is open. The rest of the head is never read.
pub const OPEN_BYTES: usize = 8;
/// The part of one disk.
pub const PART_BYTES: usize = 768;
/// The slot of one claim in a part.
pub const SLOT_BYTES: usize = 44;
/// A request record.
pub const RECORD_BYTES: usize = 24;
/// The answer buffer.
pub const ANSWER_BYTES: usize = 144;
/// An item of the answer buffer.
pub const ITEM_BYTES: usize = 16;
/// Disks of a board.
pub const DISKS: usize = 64;
/// A disk has at most this many active claims, and at most this many waiting ones.
pub const CLAIMS: usize = 8;
/// Items of the answer buffer: the call's own answer, then the grants of its pass in order.
pub const ITEMS: usize = 9;

/// Values of used and promised, and amounts to add, lie within plus or minus this.
pub const MOST_VALUE: u32 = 1_000_000_000;
/// Limits, own errors, amounts and stated limits are 0 to this.
pub const MOST_ERROR: u32 = 2_000_000_000;
/// A state is 0 to this.
pub const MOST_STATE: u32 = 255;
/// Tickets of a disk are 1 to this.
pub const MOST_TICKET: u32 = 999_999;
/// The highest priority; 0 is the lowest.
pub const MOST_PRIORITY: u32 = 255;
/// How many seconds after its stamp used is fresh.
pub const USED_VALID: u32 = 300;
/// How many seconds after its stamp promised is fresh.
pub const PROMISED_VALID: u32 = 300;
/// How many seconds after its stamp the state is fresh.
pub const STATE_VALID: u32 = 3_600;

/// The first byte of a record.
pub const MARK_0: u8 = 0x52;
/// The second byte of a record.
pub const MARK_1: u8 = 0x42;
/// The first two bytes of a record.
pub const MARK: [u8; 2] = [MARK_0, MARK_1];
/// Kind of the record of an open.
pub const OPEN: u8 = 1;
/// Kind of the record of a claim.
pub const CLAIM: u8 = 2;
/// Kind of the record of a release.
pub const RELEASE: u8 = 3;

/// Code of a granted claim.
pub const GRANTED: u32 = 0;
/// Code of a claim that waits.
pub const WAITS: u32 = 1;
/// Code of a released claim.
pub const RELEASED: u32 = 2;
/// Code of an opened disk.
pub const OPENED: u32 = 3;

/// Offsets in a record.
pub mod record {
    /// The mark, two bytes.
    pub const MARK: usize = 0;
    /// Kind: open, claim or release.
    pub const KIND: usize = 2;
    /// Disk.
    pub const DISK: usize = 3;
    /// Method of a claim.
    pub const METHOD: usize = 4;
    /// Priority of a claim.
    pub const PRIORITY: usize = 5;
    /// Fresh flag of a claim, 0 or 1.
    pub const FRESH: usize = 6;
    /// A byte that is zero in every record.
    pub const ZERO: usize = 7;
    /// Word: the second of the call.
    pub const NOW: usize = 8;
    /// Word: a claim's second of measuring.
    pub const MEASURED: usize = 12;
    /// Word: a release's ticket.
    pub const TICKET: usize = 12;
    /// Signed word: a claim's value.
    pub const VALUE: usize = 16;
    /// Word: an open's limit of used.
    pub const USED_LIMIT: usize = 16;
    /// Word: a write's own error.
    pub const OWN_ERROR: usize = 20;
    /// Word: a reading's stated limit.
    pub const STATED_LIMIT: usize = 20;
    /// Word: an open's limit of promised.
    pub const PROMISED_LIMIT: usize = 20;
}

/// Offsets in an item of the answer buffer, all words.
pub mod item {
    /// Code.
    pub const CODE: usize = 0;
    /// Ticket.
    pub const TICKET: usize = 4;
    /// Told, signed.
    pub const TOLD: usize = 8;
    /// Amount.
    pub const AMOUNT: usize = 12;
}

/// Offsets in a part.
pub mod part {
    /// Word: second of the last accepted call.
    pub const CLOCK: usize = 0;
    /// Word: next ticket, 1 to 1,000,000.
    pub const NEXT_TICKET: usize = 4;
    /// Word: count of active claims.
    pub const ACTIVE_COUNT: usize = 8;
    /// Word: count of waiting claims.
    pub const WAITING_COUNT: usize = 12;
    /// Used, a figure.
    pub const USED: usize = 16;
    /// Promised, a figure.
    pub const PROMISED: usize = 32;
    /// State, a figure without amount and limit.
    pub const STATE: usize = 48;
    /// Two words that are zero.
    pub const ZERO: usize = 56;
    /// Slots of the active claims.
    pub const ACTIVE: usize = 64;
    /// Slots of the waiting claims.
    pub const WAITING: usize = 416;
}

/// Offsets in a figure, all words.
pub mod figure {
    /// Value, signed.
    pub const VALUE: usize = 0;
    /// Stamp: second of measuring of the last released set, or of the open.
    pub const STAMP: usize = 4;
    /// Amount: how much error the figure carries.
    pub const AMOUNT: usize = 8;
    /// Limit: the most that its amount may be.
    pub const LIMIT: usize = 12;
}

/// Offsets in a slot, all words.
pub mod slot {
    /// Ticket.
    pub const TICKET: usize = 0;
    /// Method.
    pub const METHOD: usize = 4;
    /// Priority.
    pub const PRIORITY: usize = 8;
    /// Fresh flag.
    pub const FRESH: usize = 12;
    /// Second of measuring; 0 for a reading.
    pub const MEASURED: usize = 16;
    /// Value, signed; 0 for a reading.
    pub const VALUE: usize = 20;
    /// Own error of a write.
    pub const OWN_ERROR: usize = 24;
    /// Stated limit of a reading.
    pub const STATED_LIMIT: usize = 24;
    /// What an active reading was told, signed; 0 for any other claim.
    pub const TOLD: usize = 28;
    /// Amount of an active reading; 0 for any other claim.
    pub const AMOUNT: usize = 32;
    /// Two words that are zero.
    pub const ZERO: usize = 36;
}

/// Where the part of a disk begins on a board.
pub const fn part_at(disk: usize) -> usize {
    HEAD_BYTES + PART_BYTES * disk
}

/// Where a disk's open bit stands: a byte of the board, and a mask of one bit.
pub const fn open_bit(disk: usize) -> (usize, u8) {
    (disk / 8, 1 << (disk % 8))
}

/// A record with its mark, kind, disk and second, and zeros behind.
pub fn begun(kind: u8, disk: u8, now: u32) -> [u8; RECORD_BYTES] {
    let mut bytes = [0; RECORD_BYTES];
    bytes[record::MARK..record::MARK + MARK.len()].copy_from_slice(&MARK);
    bytes[record::KIND] = kind;
    bytes[record::DISK] = disk;
    put_word(&mut bytes, record::NOW, now);
    bytes
}

/// The word at an offset.
///
/// # Panics
/// Where the bytes end before the word does.
pub fn word_at(bytes: &[u8], at: usize) -> u32 {
    u32::from_le_bytes(bytes[at..at + 4].try_into().expect("four bytes"))
}

/// The signed word at an offset.
///
/// # Panics
/// Where the bytes end before the word does.
pub fn signed_at(bytes: &[u8], at: usize) -> i32 {
    i32::from_le_bytes(bytes[at..at + 4].try_into().expect("four bytes"))
}

/// Puts a word at an offset.
///
/// # Panics
/// Where the bytes end before the word does.
pub fn put_word(bytes: &mut [u8], at: usize, word: u32) {
    bytes[at..at + 4].copy_from_slice(&word.to_le_bytes());
}

/// Puts a signed word at an offset.
///
/// # Panics
/// Where the bytes end before the word does.
pub fn put_signed(bytes: &mut [u8], at: usize, word: i32) {
    bytes[at..at + 4].copy_from_slice(&word.to_le_bytes());
}
