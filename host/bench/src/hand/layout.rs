//! docs/LAYOUT.md as structs of bytes: none has an alignment or padding, and any bytes are a valid value.

use std::mem::{align_of, size_of};

pub const BOARD_BYTES: usize = 49_216;
pub const HEAD_BYTES: usize = 64;
pub const PART_BYTES: usize = 768;
pub const RECORD_BYTES: usize = 24;
pub const ANSWER_BYTES: usize = 144;
pub const PLACES: usize = 8;
pub const SLOT_BYTES: usize = 44;

/// A word: four bytes, the lowest first.
#[repr(transparent)]
#[derive(Clone, Copy)]
pub struct Word([u8; 4]);

impl Word {
    #[inline(always)]
    pub const fn of(x: u32) -> Word {
        Word(x.to_le_bytes())
    }

    #[inline(always)]
    pub const fn get(self) -> u32 {
        u32::from_le_bytes(self.0)
    }

    #[inline(always)]
    pub const fn signed(self) -> i32 {
        i32::from_le_bytes(self.0)
    }
}

/// The number in eight bytes.
#[inline(always)]
pub fn eight_at(bytes: &[u8], at: usize) -> u64 {
    u64::from_le_bytes(bytes[at..at + 8].try_into().expect("eight bytes"))
}

/// A claim, active or waiting.
#[repr(C)]
#[derive(Clone, Copy)]
pub struct Slot {
    pub ticket: Word,
    pub method: Word,
    pub priority: Word,
    pub fresh: Word,
    pub measured: Word,
    pub value: Word,
    pub error: Word,
    pub told: Word,
    pub amount: Word,
    pub zero: [u8; 8],
}

impl Slot {
    pub const EMPTY: Slot = Slot {
        ticket: Word::of(0),
        method: Word::of(0),
        priority: Word::of(0),
        fresh: Word::of(0),
        measured: Word::of(0),
        value: Word::of(0),
        error: Word::of(0),
        told: Word::of(0),
        amount: Word::of(0),
        zero: [0; 8],
    };
}

/// Used or promised.
#[repr(C)]
#[derive(Clone, Copy)]
pub struct Figure {
    pub value: Word,
    pub stamp: Word,
    pub amount: Word,
    pub limit: Word,
}

/// A disk.
#[repr(C)]
#[derive(Clone, Copy)]
pub struct Part {
    pub clock: Word,
    pub next: Word,
    pub actives: Word,
    pub waitings: Word,
    pub used: Figure,
    pub promised: Figure,
    pub state: Word,
    pub state_stamp: Word,
    pub zero: [u8; 8],
    pub active: [Slot; PLACES],
    pub waiting: [Slot; PLACES],
}

/// An item of an answer.
#[repr(C)]
#[derive(Clone, Copy)]
pub struct Item {
    pub code: Word,
    pub ticket: Word,
    pub told: Word,
    pub amount: Word,
}

/// The answer buffer.
#[repr(C)]
pub struct Answer {
    pub items: [Item; 1 + PLACES],
}

const _: () = assert!(size_of::<Part>() == PART_BYTES && align_of::<Part>() == 1);
const _: () = assert!(size_of::<Slot>() == SLOT_BYTES && align_of::<Slot>() == 1);
const _: () = assert!(size_of::<Answer>() == ANSWER_BYTES && align_of::<Answer>() == 1);

impl Part {
    /// The bytes of eight slots.
    #[inline(always)]
    pub fn bytes_of(slots: &[Slot; PLACES]) -> &[u8; PLACES * SLOT_BYTES] {
        // SAFETY: a Slot consists of bytes only, without padding.
        unsafe { &*(slots as *const [Slot; PLACES] as *const [u8; PLACES * SLOT_BYTES]) }
    }

    /// 768 lent bytes as a disk.
    #[inline(always)]
    pub fn of(bytes: &mut [u8]) -> &mut Part {
        assert_eq!(bytes.len(), PART_BYTES);
        // SAFETY: a Part consists of bytes only: it has this size and no alignment, and any bytes are a valid Part.
        unsafe { &mut *(bytes.as_mut_ptr() as *mut Part) }
    }
}

impl Answer {
    /// 144 lent bytes as an answer.
    #[inline(always)]
    pub fn of(bytes: &mut [u8]) -> &mut Answer {
        assert_eq!(bytes.len(), ANSWER_BYTES);
        // SAFETY: as for a Part.
        unsafe { &mut *(bytes.as_mut_ptr() as *mut Answer) }
    }

    /// The call's own item, all else zero. Returns the code.
    #[inline(always)]
    pub fn own(&mut self, code: u32, ticket: u32, told: i32, amount: u32) -> u32 {
        self.items = [Item { code: Word::of(0), ticket: Word::of(0), told: Word::of(0), amount: Word::of(0) }; 9];
        self.items[0] = Item::of(code, ticket, told, amount);
        code
    }

    /// A refusal.
    #[inline(always)]
    pub fn refuse(&mut self, number: u32) -> u32 {
        self.own(number, 0, 0, 0)
    }
}

impl Item {
    #[inline(always)]
    pub const fn of(code: u32, ticket: u32, told: i32, amount: u32) -> Item {
        Item { code: Word::of(code), ticket: Word::of(ticket), told: Word::of(told as u32), amount: Word::of(amount) }
    }
}
