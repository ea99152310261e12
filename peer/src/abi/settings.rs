//! The lent entries that reset with a settings record: `nataqvoju_reset_settings` for a board,
//! `nataqvoju_mill_reset_settings` for a mill. The record is only read, and may have any length.

use super::mill::{Mill, Screen};
use super::{refused, Board, Reply};
use crate::board;
use crate::settings::Settings;

/// Memory that can be reset with settings, whatever is in it.
pub trait Resettable: Copy + Eq {
    /// The memory after a reset with settings that are in range.
    fn reset_to(settings: &Settings) -> Self;

    /// The answer to a record. Refused, which it is for the record alone, the memory stays as it is.
    fn reset_settings(&mut self, record: &[u8]) -> Reply {
        match Settings::of_record(record) {
            Ok(settings) => {
                *self = Self::reset_to(&settings);
                Reply::default()
            }
            Err(refusal) => refused(refusal),
        }
    }
}

impl Resettable for Board {
    fn reset_to(settings: &Settings) -> Board {
        Board::from(&board::Board::reset_to(settings))
    }
}

impl Resettable for Mill {
    fn reset_to(settings: &Settings) -> Mill {
        Mill { board: Board::reset_to(settings), screen: Screen::UNTOLD }
    }
}
