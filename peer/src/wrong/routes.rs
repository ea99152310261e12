//! Mistakes on a board with settings: in what its registers show of them, in its reset routes and in route writes.
//!
//! The right model refuses a board with a route outside its mask. A wrong model that routes a timer there keeps the
//! masks for itself, and its board has all pins in every mask, so that the mistake shows and not a refusal 5.

use super::{Mistake, Wrong};
use crate::board::{Board, Calls, Refusal, TIMER_BLOCK};
use crate::part::{Part, PartWrite};
use crate::settings::{Settings, ALL_PINS};
use crate::timer::bits;
use crate::timers::{configuration_of, CAPABILITY, TIMERS};

impl Mistake {
    /// It is one in where a timer is routed.
    fn is_of_routes(self) -> bool {
        matches!(
            self,
            Mistake::RouteByOldBit
                | Mistake::RouteMaskIgnored
                | Mistake::RouteOutsideLowest
                | Mistake::RouteOutsideZero
                | Mistake::RouteByFirstMask
                | Mistake::RouteByAnyMask
                | Mistake::RouteBitShifted
                | Mistake::MaskWrittenHidden
                | Mistake::ResetRouteZero
                | Mistake::ResetRouteHighest
                | Mistake::ResetRouteOfFirst
                | Mistake::ResetRouteHidden
        )
    }
}

fn lowest(mask: u32) -> u16 {
    mask.trailing_zeros() as u16
}

fn highest(mask: u32) -> u16 {
    31 - mask.leading_zeros() as u16
}

/// The timer whose configuration this register is.
fn timer_of(register: u64) -> Option<usize> {
    (0..TIMERS).find(|&n| register == configuration_of(n))
}

impl Wrong {
    /// After a reset with settings.
    pub(super) fn damage_settings(&mut self) {
        let masks = self.settings.masks;
        self.memory.masks = masks;
        if self.has(Mistake::IdUsual) {
            self.board.controller.id = 0;
        }
        if !self.mistake.is_of_routes() {
            return;
        }
        for (n, timer) in self.board.timers.timer.iter_mut().enumerate() {
            timer.mask = ALL_PINS;
            timer.route = match self.mistake {
                Mistake::ResetRouteZero => 0,
                Mistake::ResetRouteHighest => highest(masks[n]),
                Mistake::ResetRouteOfFirst => lowest(masks[0]),
                _ => lowest(masks[n]),
            };
            self.memory.hidden[n] = self.mistake == Mistake::ResetRouteHidden;
        }
    }

    /// A configuration write of a model that keeps the masks for itself; answers whether it was one.
    pub(super) fn routes_its_own_way(&mut self, write: &PartWrite) -> Result<bool, Refusal> {
        let Some(n) = timer_of(write.register) else { return Ok(false) };
        let (route, mask) =
            (write.replaced >> bits::ROUTE_SHIFT & bits::ROUTE_MASK, self.settings.masks[n]);
        if self.has(Mistake::RouteOutsideIgnoresAll) {
            return Ok(route <= 23 && mask >> route & 1 == 0);
        }
        self.damage_mask(n, write);
        if !self.mistake.is_of_routes() {
            return Ok(false);
        }
        self.memory.hidden[n] = false;
        self.memory.above[n] = None;
        let decided = self.wrong_route(n, route) << bits::ROUTE_SHIFT;
        let value = write.replaced & !(bits::ROUTE_MASK << bits::ROUTE_SHIFT) | decided;
        self.board.write(TIMER_BLOCK, 8, write.register, value)?;
        Ok(true)
    }

    /// The route that timer n has after one was written.
    fn wrong_route(&mut self, n: usize, route: u64) -> u64 {
        let masks = self.settings.masks;
        let old = u64::from(self.board.timers.timer[n].route);
        let has = |mask: u32, route: u64| route <= 23 && mask >> route & 1 != 0;
        let inside = has(masks[n], route);
        let is_taken = match self.mistake {
            Mistake::RouteMaskIgnored => route <= 23,
            Mistake::RouteByOldBit => {
                self.memory.above[n] = (route > 23).then_some(route);
                route <= 23
            }
            Mistake::RouteOutsideLowest if !inside && route <= 23 => {
                return lowest(masks[n]).into()
            }
            Mistake::RouteOutsideZero if !inside && route <= 23 => return 0,
            Mistake::RouteByFirstMask => has(masks[0], route),
            Mistake::RouteByAnyMask => masks.iter().any(|&mask| has(mask, route)),
            Mistake::RouteBitShifted => route <= 23 && has(masks[n], route + 1),
            Mistake::MaskWrittenHidden => has(self.memory.masks[n], route),
            _ => inside,
        };
        if is_taken {
            route
        } else {
            old
        }
    }

    /// A write to bits 63:32 that is taken.
    fn damage_mask(&mut self, n: usize, write: &PartWrite) {
        let is_taken = match self.mistake {
            Mistake::MaskWritable | Mistake::MaskWrittenHidden => write.part != Part::Low,
            Mistake::MaskHalfWritable => write.part == Part::High,
            _ => false,
        };
        if is_taken {
            self.memory.masks[n] = (write.replaced >> bits::MASK_SHIFT) as u32;
        }
    }

    /// What a configuration or the capability register reads as a whole.
    pub(super) fn damage_shown_settings(&self, register: u64, value: u64) -> u64 {
        if register == CAPABILITY {
            return self.wrong_capability();
        }
        let Some(n) = timer_of(register) else { return value };
        let mask = match self.mistake {
            Mistake::MaskReadsUsual => ALL_PINS,
            Mistake::MaskReadsFirst => self.settings.masks[0],
            Mistake::MaskWritable | Mistake::MaskHalfWritable => self.memory.masks[n],
            _ => self.settings.masks[n],
        };
        let route = bits::ROUTE_MASK << bits::ROUTE_SHIFT;
        let low = match self.memory.above[n] {
            Some(above) => value & !route | above << bits::ROUTE_SHIFT,
            None if self.memory.hidden[n] => value & !route,
            None => value,
        };
        Part::Low.of(low) | u64::from(mask) << bits::MASK_SHIFT
    }

    fn wrong_capability(&self) -> u64 {
        let usual = Settings::USUAL;
        let Settings { vendor, period, .. } = self.settings;
        let shown =
            |period: u32, vendor: u16| u64::from(period) << 32 | u64::from(vendor) << 16 | 0x2201;
        match self.mistake {
            Mistake::CapabilityUsual => shown(usual.period, usual.vendor),
            Mistake::VendorUsual => shown(period, usual.vendor),
            Mistake::PeriodUsual => shown(usual.period, vendor),
            Mistake::VendorMisplaced => u64::from(period) << 32 | u64::from(vendor) | 0x2201 << 16,
            Mistake::CapabilitySwapped => shown(vendor.into(), period as u16),
            Mistake::PeriodSixteenBits => shown(period & 0xFFFF, vendor),
            _ => shown(period, vendor),
        }
    }

    /// What a read gives of a register, where it depends on the half.
    pub(super) fn damage_shown_half(&self, register: u64, part: Part, value: u64) -> u64 {
        let is_high = part == Part::High;
        let usual = Board::RESET.timers.read_register(register);
        match self.mistake {
            Mistake::MaskHalfReadsUsual if is_high && timer_of(register).is_some() => {
                ALL_PINS.into()
            }
            Mistake::PeriodHalfUsual if is_high && register == CAPABILITY => part.of(usual),
            _ => value,
        }
    }

    /// What index 0 or 2 reads.
    pub(super) fn wrong_id(&self, index: u32, value: u64) -> u64 {
        let of_settings = u64::from(self.settings.id) << 24;
        match self.mistake {
            Mistake::ArbitrationZero if index == 2 => 0,
            Mistake::ArbitrationBySettings if index == 2 => of_settings,
            Mistake::IdBySettings if index == 0 && of_settings != 0 => of_settings,
            _ => value,
        }
    }
}
