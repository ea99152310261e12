//! What happens in a log: interesting events, counted, so that a profile that never reaches one
//! it is meant to reach shows up.

mod halves;
mod irr;
mod list;
mod registers;
mod salvage;
mod screen;
mod screen_watch;
mod settings;
mod settings_file;
mod ticks;
mod watch;

use crate::board::Refusal;
use crate::generate::Profile;
use crate::log::{records_of, LONGEST};
use crate::settings::Settings;
use list::events;
use settings::refused_record;
use watch::Watcher;

pub use list::{Counts, Listed};
pub use salvage::SalvageEvent;
pub use screen::ScreenEvent;
pub use settings_file::SettingsEvent;

events! {
    Event, Profile;
    WireEdge: "edge by an outside wire", "vatc";
    WireEdgeActiveLow: "edge by a falling outside wire, active low", "vatc";
    WireMasked: "edge ignored on a masked pin", "vtc";
    WireSame: "outside wire set to the level that it has", "vatc";
    WireHidden: "outside wire hidden behind a level timer", "vt";
    OtherModeHolds: "edge held on a pin with another delivery mode", "vtc";
    PulseAtRaise: "pulse: edge held at the raise", "vat";
    PulseAtDrop: "pulse: edge held at the drop, active low", "vat";
    PulseHidden: "pulse hidden by a high wire", "vat";
    PulseHiddenActiveLow: "pulse hidden by a high wire, active low", "vat";
    PulseMasked: "pulse on a masked pin", "vt";
    PulseOnLevel: "pulse on a level entry", "vat";
    LevelRise: "level timer: edge at the rise", "vat";
    LevelRiseActiveLow: "level timer: rise without an edge, active low", "vat";
    LevelAgain: "level timer fires with its status set", "vat";
    LevelSilent: "level timer fires with its interrupt off", "vat";
    SameTick: "two timers fire in one tick", "vat";
    MixedWidths: "32-bit and 64-bit timer fire in one tick", "vat";
    SamePin: "first firings of two timers: same tick, same pin", "vat";
    SamePinActiveLow: "first firings of two timers: the same, active low", "vat";
    SamePinThree: "first firings of three timers: same tick, same pin", "vat";
    PulseThenPulse: "one tick: two pulses on one pin", "vat";
    PulseThenRise: "one tick: pulse, then level rise, active low", "vat";
    RiseThenPulse: "one tick: level rise, then pulse, active low", "vat";
    PulseThenHidden: "one advance: pulse seen, a later one hidden", "vat";
    FirstAtEnd: "first firing at the last tick of an advance", "vat";
    FirstPastEnd: "first firing one tick past an advance", "vat";
    OrderMatters: "order of the timers in one tick matters", "vat";
    NarrowWrap: "32-bit timer fires past the wrap at 2^32", "vat";
    WideWrap: "64-bit timer fires past the wrap at 2^64", "vat";
    NarrowMatchAbove: "32-bit timer fires with the counter above 2^32", "vat";
    ComparatorWrapNarrow: "comparator wraps at 2^32", "vat";
    ComparatorWrapWide: "comparator wraps at 2^64", "vat";
    PeriodZero: "periodic timer with period 0 fires", "vat";
    PeriodOne: "periodic timer with period 1 fires", "vat";
    PeriodHuge: "periodic timer with a period of 2^31 or more fires", "vat";
    OneShotAgain: "one-shot timer fires again at the same comparator", "vat";
    FullTurn: "one-shot timer fires again after more than 2^31 ticks", "vt";
    AdvanceZero: "advance by 0", "vat";
    AdvanceDisabled: "advance of a disabled block", "vat";
    FullFires: "full advance with firings", "vat";
    FullIdle: "full advance with nothing due", "vat";
    FullEveryTick: "full advance with a firing at every tick", "vt";
    ManyFirings: "several firings of a timer in one advance", "vat";
    ThousandTicks: "advance by 1,000 ticks or more with firings", "vat";
    HundredFirings: "100 firings or more of a timer in one advance", "vat";
    ManyThousandFirings: "100,000 firings or more of a timer in one advance", "t";
    Timer0: "timer 0 fires", "vat";
    Timer1: "timer 1 fires", "vat";
    Timer2: "timer 2 fires", "vat";
    AllTimers: "all three timers fire in one advance", "vat";
    EdgeByEnable: "edge by enabling the block", "vt";
    EdgeByDisable: "edge by disabling the block, active low", "vt";
    EdgeByStatus: "edge by clearing a status, active low", "vt";
    EdgeByConfiguration: "edge by a configuration write", "vt";
    EdgeByInterruptOn: "edge by turning an interrupt on", "vt";
    EdgeByInterruptOff: "edge by turning an interrupt off, active low", "vt";
    EdgeByRouteOn: "edge by moving a route to the pin", "vt";
    EdgeByRouteAway: "edge by moving a route away, active low", "vt";
    EdgeByEdgeType: "edge by writing edge type, active low", "vt";
    StatusHidden: "status cleared with the wire kept high, active low", "vt";
    StatusDropsSeveral: "status write that drops several wires", "vt";
    EnableMovesSeveral: "enable write that moves several wires", "vt";
    RewrittenHigh: "configuration rewritten while the wire stays high", "vt";
    MovedWire: "route moved: one wire falls and another rises", "vt";
    BitSix: "comparator write with bit 6", "vat";
    BitSixAlone: "bit 6 written without bit 3", "vat";
    BitSixRead: "bit 6 read as 1", "vat";
    PeriodOnly: "periodic comparator write without bit 6", "vat";
    OneShotKeepsPeriod: "one-shot comparator write beside a period", "vat";
    RouteAbove: "route above 23 with other bits changed", "vat";
    RouteAboveStatus: "route above 23 that clears a status", "t";
    StatusByEdgeType: "status cleared by writing edge type", "vt";
    NarrowReduces: "32-bit mode reduces a comparator", "vat";
    NarrowReducesPeriod: "32-bit mode reduces a period", "vat";
    NarrowWriteReduces: "comparator write reduced modulo 2^32", "vat";
    CounterIgnored: "counter write ignored while enabled", "vat";
    CounterTaken: "counter write taken", "vat";
    MadeEqual: "write that makes counter and comparator equal", "vat";
    HalfReadLow: "half read: low half, unlike the high one", "vat";
    HalfReadHigh: "half read: high half, unlike the low one", "vat";
    HalfEnable: "half write: low half turns the block on or off", "vat";
    HalfEnableHigh: "half write: 0x014 while the block is enabled", "vat";
    HalfConfiguration: "half write: low half changes a configuration", "vat";
    HalfConfigurationBitSix: "half write: high half of a configuration, bit 6 set", "vat";
    HalfConfigurationStatus: "half write: high half of a configuration, status set", "vat";
    HalfStatus: "half write: low half clears a status", "vat";
    HalfStatusHigh: "half write: 0x024 with the bit of a set status", "vat";
    HalfCounterLow: "half write: low half of the counter taken", "vat";
    HalfCounterHigh: "half write: high half of the counter taken", "vat";
    HalfCounterLowIgnored: "half write: low half of the counter while enabled", "vat";
    HalfCounterHighIgnored: "half write: high half of the counter while enabled", "vat";
    HalfOneShotLow: "half write: low half, one-shot comparator", "vat";
    HalfOneShotHigh: "half write: high half, one-shot comparator", "vat";
    HalfPeriodLow: "half write: low half, period alone", "vat";
    HalfPeriodHigh: "half write: high half, period alone", "vat";
    HalfBothLow: "half write: low half, bit 6, other halves differ", "vat";
    HalfBothHigh: "half write: high half, bit 6, other halves differ", "vat";
    HalfNarrowOneShot: "half write: high half, 32-bit one-shot comparator", "vat";
    HalfNarrowPeriod: "half write: high half, 32-bit period", "vat";
    HalfNarrowBothLow: "half write: low half, 32-bit, bit 6", "vat";
    HalfNarrowBothHigh: "half write: high half, 32-bit, bit 6", "vat";
    HalfSecondLow: "half write: low half after a high half took bit 6", "vat";
    HalfSecondHigh: "half write: high half after a low half took bit 6", "vat";
    HalfPeriodShows: "periodic timer fires with a period written in halves", "vat";
    HalfMakesEqual: "half write makes counter and comparator equal", "vat";
    EdgeByHalfEnable: "half write: edge by turning the block on or off", "vt";
    EdgeByHalfConfiguration: "half write: edge by a configuration", "vt";
    EdgeByHalfStatus: "half write: edge by clearing a status, active low", "vt";
    HalfRewrittenHigh: "half write: rewritten while the wire stays high", "vt";
    HalfMovedWire: "half write: one wire falls and another rises", "vt";
    HalfReadOnly: "half write: read-only register", "va";
    HalfUnlisted: "half access to an unlisted offset", "va";
    LastHalf: "half access at 0x3FC", "a";
    HeldDropped: "held edge dropped by a level write", "vac";
    HeldMasked: "held edge survives masking", "vac";
    HeldUnmasked: "held edge unmasked again", "vc";
    PolarityAsserts: "polarity write asserts an unmasked edge pin", "vac";
    StatusBitRead: "bit 12 read as 1", "vac";
    IrrRead: "bit 14 read as 1", "vac";
    LevelWriteKeeps: "level write keeps remote IRR", "vac";
    LevelWriteKeepsVector: "level write keeps remote IRR, another vector", "vac";
    LevelWriteKeepsMasked: "level write keeps remote IRR, masked", "vac";
    EdgeWriteFrees: "edge write clears remote IRR, unmasked", "vac";
    EdgeWriteFreesMasked: "edge write clears remote IRR, masked", "vac";
    EdgeWriteFreesMode: "edge write clears remote IRR, another mode", "vac";
    EdgeWriteFreesVector: "edge write clears remote IRR, another vector", "vac";
    EdgeWriteFreesOne: "edge write clears remote IRR: another pin, same vector", "vc";
    FreedRead: "edge entry read after its remote IRR was cleared", "vac";
    EdgeAndBack: "edge and back, with no end between", "vac";
    EdgeAndBackIdle: "edge and back, not asserted", "vac";
    FreedDelivered: "edge and back: level delivered without an end", "vac";
    FreedDeliveredLater: "edge and back, not asserted: delivered once asserted", "vc";
    FreedEdgeDelivered: "level delivered, edge write, edge delivered", "vc";
    DeliverEdge: "edge delivered", "vatc";
    DeliverLevel: "level delivered", "vatc";
    DeliverNone: "no pin eligible", "vatc";
    DeliverLowest: "lowest of several eligible pins", "vatc";
    DeliverPastMode: "delivery past a lower pin with another mode", "vc";
    DeliverBesideIrr: "level delivered while another pin waits for its end", "vac";
    DeliverEdgeBesideIrr: "edge delivered while a level pin waits for its end", "vac";
    EndSeveral: "end of interrupt frees several pins", "vac";
    EndOne: "end of interrupt frees one pin", "vac";
    EndNothing: "end of interrupt frees nothing", "vac";
    EndFreed: "end of interrupt after an edge write, still edge", "vc";
    EndFreedLevel: "end of interrupt after edge and back", "vc";
    Refused1: "refused 1", "a";
    Refused2: "refused 2", "a";
    Refused3: "refused 3", "a";
    Refused4: "refused 4", "a";
    WindowBeforeWidth: "unknown window and bad width", "a";
    WidthBeforeOffset: "bad width and bad offset", "a";
    OffsetBeforeValue: "bad offset and value above 32 bits", "a";
    PinBeforeLevel: "bad pin and bad level", "a";
    WholeAtFour: "timers: 8-byte access at a multiple of 4", "a";
    HalfUnaligned: "timers: 4-byte access at no multiple of 4", "a";
    WidthZero: "timers: width 0", "a";
    OtherWidth: "timers: another width, at a multiple of it", "a";
    HalfAtEnd: "timers: 4-byte access at 0x400", "a";
    TimerWidthBeforeOffset: "timers: bad width or alignment, and bad offset", "a";
    TimerWidthBeforeValue: "timers: unaligned half and value above 32 bits", "a";
    TimerOffsetBeforeValue: "timers: half at a bad offset, value above 32 bits", "a";
    BigHalf: "timers: half above 32 bits, writable register", "a";
    BigHalfReadOnly: "timers: half above 32 bits, read-only register", "a";
    BigHalfUnlisted: "timers: half above 32 bits, unlisted offset", "a";
    Unlisted: "access to an unlisted timer offset or index", "va";
    CapabilityRead: "settings: capability register read", "vat";
    CapabilityReadLow: "settings: capability register read, low half", "vat";
    CapabilityReadHigh: "settings: capability register read, high half", "vat";
    MaskRead: "settings: a mask read in whole", "vat";
    MaskReadHigh: "settings: a mask read as a high half", "vat";
    MaskWritten: "settings: another mask written in whole", "vat";
    MaskHalfWritten: "settings: another mask written as a high half", "vat";
    RouteInside: "settings: another route written inside the mask", "vat";
    RouteOutside: "settings: route outside the mask, other bits changed", "vat";
    RouteOutsideAlone: "settings: route outside the mask, nothing else", "vat";
    RouteOutsideHalf: "settings: route outside the mask by a half write", "vat";
    RouteOutsideStatus: "settings: route outside the mask that clears a status", "vat";
    RouteOfAnother: "settings: route outside the mask, in another timer's", "vat";
    RouteAboveMask: "settings: route above 23 with other bits changed", "vat";
    ResetRoutePulse: "settings: a timer pulses at its reset route", "vatc";
    ResetRouteLevel: "settings: a timer drives its reset route", "vatc";
    IdRead: "settings: the id read after the reset", "vatc";
    IdReadWritten: "settings: the id read after another one was written", "vatc";
    ArbitrationRead: "settings: index 2 read after the reset", "vatc";
    ArbitrationReadWritten: "settings: index 2 read after another id was written", "vatc";
    Settings8: "settings refused 8", "vatc";
    Settings6: "settings refused 6", "vatc";
    Settings9: "settings refused 9", "vatc";
    Settings10: "settings refused 10", "vatc";
    SettingsTooLong: "settings refused and a log that is too long", "x";
    Stopped6: "stopped 6", "x";
    Stopped7: "stopped 7", "x";
    Stopped8: "stopped 8", "x";
    StrayByte: "one or two stray bytes at the end", "x";
    ShortBody: "record with its body cut", "x";
    EmptyLog: "empty log", "x";
    Longest: "log of 65,536 bytes", "x";
    TooLong: "too long", "x";
}

impl Event {
    /// Only an advance that is too long to be walked reaches it.
    pub fn is_of_long_advances(self) -> bool {
        matches!(self, Event::FullTurn | Event::FullFires | Event::FullIdle | Event::FullEveryTick)
    }
}

impl Counts<Event> {
    /// Plays a log, with a settings record if there is one, and counts what happens in it; answers the number of its
    /// records.
    pub fn watch(&mut self, record: Option<&[u8]>, log: &[u8]) -> usize {
        let settings = match record.map_or(Ok(Settings::USUAL), Settings::of_record) {
            Ok(settings) => settings,
            Err(refusal) => {
                self.note(refused_record(refusal));
                self.note_if(log.len() > LONGEST, Event::SettingsTooLong);
                return 0;
            }
        };
        if log.len() > LONGEST {
            self.note(Event::TooLong);
            return 0;
        }
        self.note_if(log.is_empty(), Event::EmptyLog);
        self.note_if(log.len() == LONGEST, Event::Longest);
        let (records, stop) = records_of(log);
        let mut watcher = Watcher::new(self, settings);
        for record in &records {
            watcher.watch(record);
        }
        if let Some((refusal, place)) = stop {
            self.watch_stop(refusal, log.len() - place);
        }
        records.len()
    }

    fn watch_stop(&mut self, refusal: Refusal, left: usize) {
        match refusal {
            Refusal::Mark => self.note(Event::Stopped6),
            Refusal::Kind => self.note(Event::Stopped7),
            _ => {
                self.note(Event::Stopped8);
                self.note(if left < 3 { Event::StrayByte } else { Event::ShortBody });
            }
        }
    }
}
