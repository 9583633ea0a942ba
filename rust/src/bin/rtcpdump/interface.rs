//! Interface descriptions of pcapng files: how the frames of an interface are
//! read, and what its times mean.

use crate::link::Link;
use crate::order::Order;
use crate::time::Time;

/// What a section says of one of its interfaces.
#[derive(Clone, Copy)]
pub struct Interface {
    pub link: Result<Link, u32>,
    pub snap: u32,
    /// Units of time in a second: 10 or 2, and its power.
    base: u8,
    power: u8,
    /// Seconds to add.
    later: i64,
}

impl Interface {
    /// Reads the body of an interface description.
    pub fn of(order: Order, body: &[u8]) -> Result<Self, String> {
        if body.len() < 8 {
            return Err("the interface description has no link type".into());
        }
        let mut interface = Interface {
            link: Link::of(order.u16_at(body, 0).into(), order),
            snap: order.u32_at(body, 4),
            base: 10,
            power: 6,
            later: 0,
        };
        let mut options = &body[8..];
        while options.len() >= 4 {
            let (code, len) = (order.u16_at(options, 0), order.u16_at(options, 2));
            let Some(value) = options[4..].get(..len.into()) else {
                break;
            };
            match (code, value) {
                (0, _) => break,
                (9, [resolution]) => {
                    interface.base = if *resolution < 128 { 10 } else { 2 };
                    interface.power = resolution & 127;
                }
                (14, value) if value.len() == 8 => interface.later = order.u64_at(value, 0) as i64,
                _ => (),
            }
            let next = 4 + value.len().next_multiple_of(4);
            options = options.get(next..).unwrap_or_default();
        }
        Ok(interface)
    }

    /// The time that units of the interface's clock are.
    pub fn time(&self, units: u64) -> Time {
        let second = u128::from(self.base).checked_pow(self.power.into());
        // Finer units than 128 bits can count are no time at all.
        let second = second.filter(|second| *second <= u128::MAX / 1_000_000_000);
        let units = u128::from(units);
        let nanoseconds = match second {
            Some(second) => {
                units / second * 1_000_000_000 + units % second * 1_000_000_000 / second
            }
            None => 0,
        };
        Time(nanoseconds as i128 + i128::from(self.later) * 1_000_000_000)
    }
}
