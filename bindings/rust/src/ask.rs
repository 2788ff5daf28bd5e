//! What can be asked: pool ranges, reservations, requests; each as the numbers that the planner reads. A request with its answer written back.

use crate::{raw, Granted, REQUEST};
use core::ops::Range;

/// Which pools a range is added to: those that automatic requests search, or those that fixed requests are allowed in.
#[derive(Clone, Copy, Debug, PartialEq, Eq)]
pub enum Use {
    Automatic = 0,
    Fixed = 1,
}

/// A pool range. Ranges are half-open; those of LPIs start at [`FIRST_LPI`](crate::FIRST_LPI) or above.
#[derive(Clone, Debug, PartialEq, Eq)]
pub enum Pool {
    Mmio {
        start: u64,
        end: u64,
    },
    Pio {
        start: u16,
        end: u16,
    },
    Input {
        controller: u32,
        start: u64,
        end: u64,
    },
    Host {
        start: u64,
        end: u64,
    },
    Msi {
        controller: u32,
        its: u32,
        devices: Range<u32>,
        events: Range<u32>,
        lpis: Range<u32>,
    },
}

impl Pool {
    pub(crate) fn numbers(&self, used: Use) -> [u64; 11] {
        let (kind, n): (u64, [u64; 8]) = match self {
            Pool::Mmio { start, end } => (1, [*start, *end, 0, 0, 0, 0, 0, 0]),
            Pool::Pio { start, end } => (2, [(*start).into(), (*end).into(), 0, 0, 0, 0, 0, 0]),
            Pool::Input {
                controller,
                start,
                end,
            } => (3, [(*controller).into(), *start, *end, 0, 0, 0, 0, 0]),
            Pool::Host { start, end } => (4, [*start, *end, 0, 0, 0, 0, 0, 0]),
            Pool::Msi {
                controller,
                its,
                devices,
                events,
                lpis,
            } => {
                let n = [
                    *controller,
                    *its,
                    devices.start,
                    devices.end,
                    events.start,
                    events.end,
                    lpis.start,
                    lpis.end,
                ];
                (5, n.map(u64::from))
            }
        };
        [
            1,
            used as u64,
            kind,
            n[0],
            n[1],
            n[2],
            n[3],
            n[4],
            n[5],
            n[6],
            n[7],
        ]
    }
}

/// What an owner reserves. Triggers: 0 to 3; sharing: 0 exclusive, 1 shared. A pair is one input, exclusive, and one host IRQ, both or neither.
#[derive(Clone, Debug, PartialEq, Eq)]
pub enum Hold {
    Mmio {
        start: u64,
        end: u64,
    },
    Pio {
        start: u16,
        end: u16,
    },
    Input {
        controller: u32,
        input: u64,
        trigger: u32,
        sharing: u32,
    },
    Host {
        start: u64,
        end: u64,
    },
    Device {
        controller: u32,
        its: u32,
        devices: Range<u32>,
    },
    Event {
        controller: u32,
        its: u32,
        device: DeviceId,
        events: Range<u32>,
    },
    Lpi {
        controller: u32,
        lpis: Range<u32>,
    },
    Pair {
        controller: u32,
        input: u64,
        trigger: u32,
        host: u64,
    },
}

impl Hold {
    pub(crate) fn numbers(&self, owner: u32) -> [u64; 8] {
        let (kind, n): (u64, [u64; 5]) = match self {
            Hold::Mmio { start, end } => (1, [*start, *end, 0, 0, 0]),
            Hold::Pio { start, end } => (2, [(*start).into(), (*end).into(), 0, 0, 0]),
            Hold::Input {
                controller,
                input,
                trigger,
                sharing,
            } => (
                3,
                [
                    (*controller).into(),
                    *input,
                    (*trigger).into(),
                    (*sharing).into(),
                    0,
                ],
            ),
            Hold::Host { start, end } => (4, [*start, *end, 0, 0, 0]),
            Hold::Device {
                controller,
                its,
                devices,
            } => (
                5,
                [*controller, *its, devices.start, devices.end, 0].map(u64::from),
            ),
            Hold::Event {
                controller,
                its,
                device,
                events,
            } => (
                6,
                [*controller, *its, device.0, events.start, events.end].map(u64::from),
            ),
            Hold::Lpi { controller, lpis } => {
                (7, [*controller, lpis.start, lpis.end, 0, 0].map(u64::from))
            }
            Hold::Pair {
                controller,
                input,
                trigger,
                host,
            } => (
                8,
                [(*controller).into(), *input, (*trigger).into(), *host, 0],
            ),
        };
        [2, owner.into(), kind, n[0], n[1], n[2], n[3], n[4]]
    }
}

/// The number of a device at its ITS.
#[derive(Clone, Copy, Debug, PartialEq, Eq)]
pub struct DeviceId(pub u32);

/// The number of an event of a device.
#[derive(Clone, Copy, Debug, PartialEq, Eq)]
pub struct EventId(pub u32);

/// The number of a message interrupt of a controller. Any may be asked for; one below [`FIRST_LPI`](crate::FIRST_LPI) is in no pool.
#[derive(Clone, Copy, Debug, PartialEq, Eq)]
pub struct Lpi(pub u32);

impl From<DeviceId> for u64 {
    fn from(id: DeviceId) -> u64 {
        id.0.into()
    }
}

impl From<EventId> for u64 {
    fn from(id: EventId) -> u64 {
        id.0.into()
    }
}

impl From<Lpi> for u64 {
    fn from(id: Lpi) -> u64 {
        id.0.into()
    }
}

/// Left to the planner, or asked for by its number.
#[derive(Clone, Copy, Debug, PartialEq, Eq)]
pub enum Choice<T> {
    Auto,
    Fixed(T),
}

impl<T> Choice<T> {
    /// That number, where there is one.
    fn ask_for(&mut self, number: Option<T>) {
        if let Some(number) = number {
            *self = Choice::Fixed(number);
        }
    }
}

impl<T: Into<u64> + Copy> Choice<T> {
    fn numbers(&self) -> [u64; 2] {
        match *self {
            Choice::Auto => [0, 0],
            Choice::Fixed(n) => [1, n.into()],
        }
    }
}

/// What a request wants. An alignment has exactly one bit set. The three numbers of a message interrupt are of three types:
/// one cannot stand in another's place.
///
/// ```compile_fail
/// use thurgoleo::{Choice, DeviceId, EventId, Lpi, Want};
/// let (device, event, lpi) = (Choice::Fixed(Lpi(8192)), Choice::Fixed(EventId(0)), Choice::Fixed(DeviceId(1)));
/// let _ = Want::Msi { controller: 0, its: 0, count: 1, device, event, lpi };
/// ```
#[derive(Clone, Copy, Debug, PartialEq, Eq)]
pub enum Want {
    Mmio {
        size: u64,
        alignment: u64,
        choice: Choice<u64>,
    },
    Pio {
        size: u16,
        alignment: u16,
        choice: Choice<u16>,
    },
    Input {
        controller: u32,
        trigger: u32,
        sharing: u32,
        choice: Choice<u64>,
    },
    HostIrq {
        choice: Choice<u64>,
    },
    Msi {
        controller: u32,
        its: u32,
        count: u32,
        device: Choice<DeviceId>,
        event: Choice<EventId>,
        lpi: Choice<Lpi>,
    },
}

/// A request: who asks, for which of its slots, and what.
#[derive(Clone, Copy, Debug, PartialEq, Eq)]
pub struct Request {
    pub requester: u32,
    pub slot: u32,
    pub want: Want,
}

impl Request {
    /// The twelve numbers of the request.
    ///
    /// ```
    /// use thurgoleo::{Choice, Request, Want};
    /// let r = Request { requester: 5, slot: 2, want: Want::HostIrq { choice: Choice::Fixed(40) } };
    /// assert_eq!(r.numbers(), [4, 5, 2, 0, 0, 0, 1, 40, 0, 0, 0, 0]);
    /// ```
    pub fn numbers(&self) -> [u64; REQUEST] {
        let none = [0, 0];
        let (kind, abc, x, y, z): (u64, [u64; 3], [u64; 2], [u64; 2], [u64; 2]) = match &self.want {
            Want::Mmio {
                size,
                alignment,
                choice,
            } => (1, [*size, *alignment, 0], choice.numbers(), none, none),
            Want::Pio {
                size,
                alignment,
                choice,
            } => (
                2,
                [(*size).into(), (*alignment).into(), 0],
                choice.numbers(),
                none,
                none,
            ),
            Want::Input {
                controller,
                trigger,
                sharing,
                choice,
            } => (
                3,
                [*controller, *trigger, *sharing].map(u64::from),
                choice.numbers(),
                none,
                none,
            ),
            Want::HostIrq { choice } => (4, [0; 3], choice.numbers(), none, none),
            Want::Msi {
                controller,
                its,
                count,
                device,
                event,
                lpi,
            } => (
                5,
                [*controller, *its, *count].map(u64::from),
                device.numbers(),
                event.numbers(),
                lpi.numbers(),
            ),
        };
        [
            kind,
            self.requester.into(),
            self.slot.into(),
            abc[0],
            abc[1],
            abc[2],
            x[0],
            x[1],
            y[0],
            y[1],
            z[0],
            z[1],
        ]
    }

    /// The request with its answer written back: what was automatic then asks for the number that it was given. A record that is not of this kind, requester and
    /// slot changes nothing. Of a whole plan [`Plan::pin`](crate::Plan::pin) does the same.
    ///
    /// Of the requests that were accepted since one start, one by one or in plans accepted whole, and whose requester was not withdrawn after them, any selection,
    /// written back, gets the same numbers again, in any order, as one plan from a fresh start on the pools and reservations of that start, provided that each
    /// automatic pool range lies inside a fixed one.
    ///
    /// ```
    /// use thurgoleo::{Choice, Planner, Pool, Request, Use, Want};
    /// let mut planner = Planner::new().unwrap();
    /// planner.add_pool(Use::Automatic, Pool::Host { start: 40, end: 60 }).unwrap();
    /// let irq = Request { requester: 7, slot: 0, want: Want::HostIrq { choice: Choice::Auto } };
    /// let granted = planner.allocate(&irq).unwrap();
    /// assert_eq!(irq.pinned(&granted).want, Want::HostIrq { choice: Choice::Fixed(40) });
    ///
    /// let other = Request { slot: 1, ..irq };
    /// assert_eq!(other.pinned(&granted), other);
    /// ```
    pub fn pinned(&self, granted: &Granted) -> Request {
        let mut numbers = self.numbers();
        raw::pin(&mut numbers, &granted.numbers());
        let [x, y, z] = [7, 9, 11].map(|at| (numbers[at - 1] == 1).then_some(numbers[at]));
        let mut request = *self;
        match &mut request.want {
            Want::Mmio { choice, .. } => choice.ask_for(x),
            Want::Pio { choice, .. } => choice.ask_for(x.map(|n| n as u16)),
            Want::Input { choice, .. } => choice.ask_for(x),
            Want::HostIrq { choice } => choice.ask_for(x),
            Want::Msi {
                device, event, lpi, ..
            } => {
                device.ask_for(x.map(|n| DeviceId(n as u32)));
                event.ask_for(y.map(|n| EventId(n as u32)));
                lpi.ask_for(z.map(|n| Lpi(n as u32)));
            }
        }
        request
    }
}
