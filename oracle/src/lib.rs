// The original as judge: its unchanged files, the parts they lack, 01's additions around them, texts and cases.

extern crate alloc;
// The original takes its ids from a crate of this name.
extern crate self as axdevice_base;

mod ids;
pub use ids::*;

include!(concat!(env!("OUT_DIR"), "/unchanged.rs"));
use resources::{DeviceManagerError, DeviceManagerResult};

pub mod added;
pub mod broken;
pub mod calls;
pub mod cases;
pub mod compare;
pub mod departures;
pub mod foreseen;
pub mod gen;
pub mod judge;
#[cfg(feature = "ours")]
pub mod ours;
pub mod pinned;
pub mod text;
