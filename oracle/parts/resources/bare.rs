// The bare original under plain calls: numbers in, the original's own answer out as 01 numbers it, nothing added.

use alloc::string::{String, ToString};
use alloc::vec::Vec;
use std::panic::{catch_unwind, AssertUnwindSafe};
use std::rc::Rc;

use axdevice_base::*;

use super::allocation::AllocationState;
use super::answers::{message, record, refusal_of_add, refusal_of_request};
use super::rows::owner_text;
use super::*;
use crate::calls::{Add, Answer, Choice, Hold, Kind, Need, Place, PoolRange, Request, Row, Seven};

/// The original's pools, and its allocators once they have begun.
#[derive(Default)]
pub struct Bare {
    pools: ResourcePools,
    pub(super) live: Option<Live>,
}

/// Allocators at work. They borrow the pools that they began from.
pub(super) struct Live {
    pub(super) state: AllocationState<'static>,
    _pools: Rc<ResourcePools>,
}

impl Live {
    fn begin(pools: ResourcePools) -> Self {
        let pools = Rc::new(pools);
        // SAFETY: the pools stay where they are and unchanged as long as the Rc beside the borrower lives, and the
        // borrower, declared first, is dropped first.
        let borrowed: &'static ResourcePools = unsafe { &*Rc::as_ptr(&pools) };
        Live { state: AllocationState::new(borrowed), _pools: pools }
    }
}

impl Bare {
    pub fn new() -> Self {
        Self { pools: ResourcePools::new(), live: None }
    }

    /// The same pools with no allocator begun.
    pub fn copy(&self) -> Self {
        Self { pools: self.pools.clone(), live: None }
    }

    /// One call that adds. Allocators that had begun are forgotten, as they borrow the pools.
    pub fn add(&mut self, add: &Add) -> Answer {
        self.live = None;
        let pools = &mut self.pools;
        match catch_unwind(AssertUnwindSafe(|| add_to(pools, add))) {
            Ok(Ok(())) => Answer::Accepted,
            Ok(Err(error)) => Answer::Refused(refusal_of_add(&error)),
            Err(panic) => Answer::Panicked(message(&*panic)),
        }
    }

    /// The allocators begin from the reservations.
    pub fn start(&mut self) {
        self.live = Some(Live::begin(self.pools.clone()));
    }

    /// The allocators begin from the given rows in place of the reservations.
    pub fn seat(&mut self, owners: &Seven) {
        let mut pools = self.pools.clone();
        pools.seat(owners);
        self.live = Some(Live::begin(pools));
    }

    pub fn is_begun(&self) -> bool {
        self.live.is_some()
    }

    pub fn forget_allocators(&mut self) {
        self.live = None;
    }

    /// One request; the allocators begin if they have not.
    pub fn request(&mut self, request: &Request) -> Answer {
        let result = catch_unwind(AssertUnwindSafe(|| {
            let (requester, requirement) = Self::spelt(request);
            self.allocate(&requester, &requirement)
        }));
        match result {
            Ok(Ok(resolved)) => Answer::Granted(record(request, &resolved)),
            Ok(Err(error)) => Answer::Refused(refusal_of_request(&error)),
            Err(panic) => {
                self.live = None;
                Answer::Panicked(message(&*panic))
            }
        }
    }

    /// A request as the original takes it: who asks, and what for.
    pub fn spelt(request: &Request) -> (String, DeviceRequirement) {
        (owner_text(request.requester), requirement(request))
    }

    /// The original's own call with nothing around it, for measures; the allocators begin if they have not.
    pub fn allocate(
        &mut self,
        requester: &str,
        requirement: &DeviceRequirement,
    ) -> Result<ResolvedResource, ResourcePlanningError> {
        if !self.is_begun() {
            self.start();
        }
        self.live.as_mut().expect("begun").state.allocate(requester, requirement)
    }

    /// Rows of a pool or reservation table: domains ascending, each domain's rows in the original's order.
    pub fn rows(&self, place: Place, kind: Kind) -> Vec<Row> {
        self.pools.rows(place, kind)
    }

    /// Takes the numbers below `first` out of the automatic host IRQ pools.
    pub fn cut_auto_host_irqs(&mut self, first: Option<u64>) {
        self.live = None;
        self.pools.cut_auto_host_irqs(first);
    }
}

fn add_to(pools: &mut ResourcePools, add: &Add) -> DeviceManagerResult {
    match add {
        Add::Pool { fixed, range } => add_pool(pools, *fixed, range.clone()),
        Add::Domain { fixed, controller, its, devices, events, lpis } => {
            let (controller, its) = (InterruptControllerId::new(*controller), ItsId::new(*its));
            let devices = MsiDeviceId::new(devices.start)..MsiDeviceId::new(devices.end);
            let events = MsiEventId::new(events.start)..MsiEventId::new(events.end);
            let lpis = LpiId::new(lpis.start)..LpiId::new(lpis.end);
            if *fixed {
                pools.allow_fixed_msi_domain(controller, its, devices, events, lpis)
            } else {
                pools.add_auto_msi_domain(controller, its, devices, events, lpis)
            }
        }
        Add::Hold { owner, what } => hold(pools, owner_text(*owner), what.clone()),
        Add::Pair { owner, controller, input, host, trigger } => pools.reserve_wired_host_irq(
            owner_text(*owner),
            InterruptControllerId::new(*controller),
            ControllerInputId::new(*input as usize),
            HostIrqId::new(*host as usize),
            trigger_of(*trigger),
        ),
    }
}

fn add_pool(pools: &mut ResourcePools, fixed: bool, range: PoolRange) -> DeviceManagerResult {
    match (fixed, range) {
        (false, PoolRange::Mmio(r)) => pools.add_auto_mmio(r),
        (true, PoolRange::Mmio(r)) => pools.allow_fixed_mmio(r),
        (false, PoolRange::Pio(r)) => pools.add_auto_pio(r),
        (true, PoolRange::Pio(r)) => pools.allow_fixed_pio(r),
        (false, PoolRange::Host(r)) => pools.add_auto_host_irqs(r.start as usize..r.end as usize),
        (true, PoolRange::Host(r)) => pools.allow_fixed_host_irqs(r.start as usize..r.end as usize),
        (fixed, PoolRange::Input { controller, inputs }) => {
            let controller = InterruptControllerId::new(controller);
            let inputs = ControllerInputId::new(inputs.start as usize)..ControllerInputId::new(inputs.end as usize);
            if fixed {
                pools.allow_fixed_controller_inputs(controller, inputs)
            } else {
                pools.add_auto_controller_inputs(controller, inputs)
            }
        }
    }
}

fn hold(pools: &mut ResourcePools, owner: String, what: Hold) -> DeviceManagerResult {
    match what {
        Hold::Mmio(r) => pools.reserve_mmio(owner, r),
        Hold::Pio(r) => pools.reserve_pio(owner, r),
        Hold::Host(r) => pools.reserve_host_irqs(owner, r.start as usize..r.end as usize),
        Hold::Input { controller, input, trigger, sharing } => pools.reserve_controller_input(
            owner,
            InterruptControllerId::new(controller),
            ControllerInputId::new(input as usize),
            trigger_of(trigger),
            sharing_of(sharing),
        ),
        Hold::Device { controller, its, devices } => pools.reserve_msi_devices(
            owner,
            InterruptControllerId::new(controller),
            ItsId::new(its),
            MsiDeviceId::new(devices.start)..MsiDeviceId::new(devices.end),
        ),
        Hold::Event { controller, its, device, events } => pools.reserve_msi_events(
            owner,
            InterruptControllerId::new(controller),
            ItsId::new(its),
            MsiDeviceId::new(device),
            MsiEventId::new(events.start)..MsiEventId::new(events.end),
        ),
        Hold::Lpi { controller, lpis } => pools.reserve_lpis(
            owner,
            InterruptControllerId::new(controller),
            LpiId::new(lpis.start)..LpiId::new(lpis.end),
        ),
    }
}

fn requirement(request: &Request) -> DeviceRequirement {
    let slot = ResourceSlot(request.slot.to_string());
    match request.need {
        Need::Mmio { size, alignment, base } => {
            DeviceRequirement::Mmio { slot, size, alignment, request: choice(base, |n| n) }
        }
        Need::Pio { size, alignment, base } => {
            DeviceRequirement::Pio { slot, size, alignment, request: choice(base, |n| n) }
        }
        Need::Input { controller, trigger, sharing, input } => DeviceRequirement::WiredIrq {
            slot,
            controller: InterruptControllerId::new(controller),
            trigger: trigger_of(trigger),
            sharing: sharing_of(sharing),
            request: choice(input, |n| ControllerInputId::new(n as usize)),
        },
        Need::Host { irq } => DeviceRequirement::HostIrq { slot, request: choice(irq, |n| HostIrqId::new(n as usize)) },
        Need::Msi { controller, its, count, device, event, lpi } => {
            let request = MsiResourceRequest {
                controller: InterruptControllerId::new(controller),
                its: ItsId::new(its),
                count,
                device: choice(device, MsiDeviceId::new),
                event: choice(event, MsiEventId::new),
                lpi: choice(lpi, LpiId::new),
            };
            DeviceRequirement::Msi { slot, request }
        }
    }
}

fn choice<T, U>(choice: Choice<T>, id: impl Fn(T) -> U) -> ResourceRequest<U> {
    match choice {
        Choice::Auto => ResourceRequest::Auto,
        Choice::Fixed(number) => ResourceRequest::Fixed(id(number)),
    }
}

fn trigger_of(code: u32) -> InterruptTrigger {
    InterruptTrigger::from_code(code).expect("the original's type has no such trigger")
}

fn sharing_of(code: u32) -> InterruptSharing {
    InterruptSharing::from_code(code).expect("the original's type has no such sharing")
}
