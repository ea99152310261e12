//! The salvage's lent entry: a log that is only read, and two buffers that are filled.

use crate::board::Refusal;
use crate::salvage::Salvage;

/// What the entry answers.
#[repr(C)]
#[derive(Clone, Copy, PartialEq, Eq, Debug, Default)]
pub struct Salvaged {
    /// The paper's number: 0, or 12 if the records or the list don't fit.
    pub number: u64,
    /// How many records were kept; 0 if refused.
    pub records: u64,
    /// How many bytes they have; 0 if refused.
    pub bytes: u64,
    /// How many stretches were skipped, with two numbers each in the list; 0 if refused.
    pub stretches: u64,
}

const _: () = assert!(size_of::<Salvaged>() == 32);

/// `nataqvoju_salvage`: the records go to the start of one buffer, the list to the start of the other, and
/// what is behind them stays. If one of the two doesn't fit, both buffers stay.
pub fn salvage(log: &[u8], kept: &mut [u8], list: &mut [u64]) -> Salvaged {
    let salvage = Salvage::of(log);
    let (records, stretches) = (salvage.records(), salvage.list());
    let rooms = (kept.get_mut(..records.len()), list.get_mut(..stretches.len()));
    let (Some(kept), Some(list)) = rooms else {
        return Salvaged { number: Refusal::Room.number().into(), ..Salvaged::default() };
    };
    kept.copy_from_slice(&records);
    list.copy_from_slice(&stretches);
    Salvaged {
        number: 0,
        records: salvage.kept.len() as u64,
        bytes: records.len() as u64,
        stretches: salvage.skipped.len() as u64,
    }
}
