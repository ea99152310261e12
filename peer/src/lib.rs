//! The second, independent model of the board.
//!
//! It is written from documents 01 and 02 and the decided readings alone, in a structure of its own: a
//! struct for each pin, wires that settle step by step, and time that jumps from one tick at
//! which a pin can change to the next. The first program is compared with it.
//!
//! - [`pin`], [`controller`], [`part`], [`timer`], [`timers`], [`settings`], [`board`], [`mill`]: the model.
//! - [`log`], [`screen`]: event logs, read and replayed, on a board and on a mill.
//! - [`salvage`]: damaged logs, and what can be got from them.
//! - [`settings_file`]: settings records, shown and made.
//! - [`generate`], [`events`], [`shrink`], [`fuzz`]: random logs, what happens in them, and the
//!   comparison with another program.
//! - [`abi`], [`sequence`]: the lent entry's memory layout and its answers; random sequences of
//!   its calls, resets among them.
//! - [`wrong`], [`mutants`]: wrong models that the comparison has to find.

pub mod abi;
pub mod board;
pub mod controller;
pub mod events;
pub mod fuzz;
pub mod generate;
pub mod log;
pub mod mill;
pub mod mutants;
pub mod part;
pub mod pin;
pub mod random;
pub mod salvage;
pub mod screen;
pub mod sequence;
pub mod settings;
pub mod settings_file;
pub mod shrink;
pub mod timer;
pub mod timers;
pub mod wrong;
