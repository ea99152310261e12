//! The lent entries' memory layout, and what each of their calls has to answer: the board's here, the mill's in
//! [`mill`], the plain engine's in [`plain`], the salvage's in [`mod@salvage`], a reset with settings in [`settings`].
//!
//! No struct has padding, so equal fields are equal bytes. Fields are as wide as the C interface
//! has them; what doesn't fit the model's types isn't well formed.

mod call;
pub mod mill;
mod model;
pub mod plain;
pub mod salvage;
pub mod settings;

use std::mem::offset_of;

use crate::pin::PINS;
use crate::timers::TIMERS;

pub(crate) use call::refused;
pub use call::{kind, Call, Reply};

/// The redirection entries by columns, with pin levels and held edges.
#[repr(C)]
#[derive(Clone, Copy, PartialEq, Eq, Debug)]
pub struct Entries {
    /// Stored low words.
    pub low: [u32; PINS],
    /// Bits 31:24 of the high words.
    pub destination: [u8; PINS],
    /// Levels of the pins' wires.
    pub level: [u8; PINS],
    /// Held edges.
    pub held: [u8; PINS],
}

/// The controller.
#[repr(C)]
#[derive(Clone, Copy, PartialEq, Eq, Debug)]
pub struct Controller {
    /// At most 15.
    pub id: u32,
    /// At most 255.
    pub index: u32,
    /// The entries.
    pub entries: Entries,
}

/// One timer; the flags are 0 or 1.
#[repr(C)]
#[derive(Clone, Copy, PartialEq, Eq, Debug)]
pub struct Timer {
    /// The comparator.
    pub comparator: u64,
    /// The period.
    pub period: u64,
    /// A pin of its mask.
    pub route: u16,
    /// Level type.
    pub level_type: u8,
    /// Interrupt enable.
    pub interrupt: u8,
    /// Periodic.
    pub periodic: u8,
    /// Set-comparator.
    pub set_comparator: u8,
    /// 32-bit mode.
    pub narrow: u8,
    /// Status.
    pub status: u8,
}

/// The timer block.
#[repr(C)]
#[derive(Clone, Copy, PartialEq, Eq, Debug)]
pub struct Timers {
    /// The main counter.
    pub counter: u64,
    /// The tick period in femtoseconds, 1 to 100,000,000.
    pub tick_period: u32,
    /// At most 65,535.
    pub vendor: u32,
    /// The timers' route masks, each nonzero and below 2^24.
    pub masks: [u32; TIMERS],
    /// 0 or 1.
    pub enabled: u32,
    /// The timers.
    pub timer: [Timer; TIMERS],
}

/// The board.
#[repr(C)]
#[derive(Clone, Copy, PartialEq, Eq, Debug)]
pub struct Board {
    /// The timer block.
    pub timers: Timers,
    /// The controller.
    pub controller: Controller,
    /// The outside wires.
    pub outside: [u8; PINS],
}

const _: () = assert!(size_of::<Entries>() == 168 && size_of::<Controller>() == 176);
const _: () = assert!(size_of::<Timer>() == 24 && size_of::<Timers>() == 104);
const _: () = assert!(size_of::<Board>() == 304 && size_of::<Reply>() == 32);
const _: () = assert!(offset_of!(Timers, tick_period) == 8 && offset_of!(Timers, vendor) == 12);
const _: () = assert!(offset_of!(Timers, masks) == 16 && offset_of!(Timers, enabled) == 28);
const _: () = assert!(offset_of!(Timers, timer) == 32 && offset_of!(Board, controller) == 104);
