// The original's allocators, called as the crate itself calls them: requests are spelt out beforehand.

use oracle::calls::{Add, Request};
use oracle::resources::bare::Bare;
use oracle::resources::DeviceRequirement;

pub struct Spelt {
    requester: String,
    requirement: DeviceRequirement,
}

pub fn spelt(request: &Request) -> Spelt {
    let (requester, requirement) = Bare::spelt(request);
    Spelt { requester, requirement }
}

/// The original's pools and reservations.
pub struct Theirs(Bare);

impl Theirs {
    pub fn with(adds: &[Add]) -> Self {
        let mut bare = Bare::new();
        for add in adds {
            bare.add(add);
        }
        Theirs(bare)
    }

    /// Allocators that have just begun from the reservations.
    pub fn started(&self) -> Self {
        let mut bare = self.0.copy();
        bare.start();
        Theirs(bare)
    }

    /// The original's call. Whether it granted the request.
    #[inline]
    pub fn allocate(&mut self, request: &Spelt) -> bool {
        self.0.allocate(&request.requester, &request.requirement).is_ok()
    }
}
