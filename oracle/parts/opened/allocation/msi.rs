
// Reads the three MSI owner tables; stands behind the end of the file of this name in the `opened` tree only.

impl MsiAllocator<'_> {
    /// The device, event and LPI owner tables as rows.
    pub(super) fn owner_rows(&self) -> [Vec<crate::calls::Row>; 3] {
        use crate::resources::rows::{all, controller_domain, event_domain, holders, its_domain};
        [
            all(&self.allocated.devices, |key, owners| holders(its_domain(key), owners)),
            all(&self.allocated.events, |key, owners| holders(event_domain(key), owners)),
            all(&self.allocated.lpis, |key, owners| holders(controller_domain(key), owners)),
        ]
    }
}
