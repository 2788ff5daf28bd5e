// The parent of the original's `pool` and `allocation`, naming only the files that are there.

mod allocation;
mod answers;
pub mod bare;
mod error;
mod pool;
mod requirements;
mod resolved;
mod rows;

pub use error::{DeviceManagerError, DeviceManagerResult, ResourceNamespace, ResourcePlanningError};
pub use pool::ResourcePools;
pub use requirements::{DeviceRequirement, MsiResourceRequest, ResourceRequest, ResourceSlot};
pub use resolved::{ResolvedMsi, ResolvedResource, ResolvedWiredIrq};
