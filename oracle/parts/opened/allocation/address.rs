
// Reads the MMIO and PIO owner tables; stands behind the end of the file of this name in the `opened` tree only.

impl AddressAllocator<'_> {
    /// The MMIO and the PIO owner table as rows.
    pub(super) fn owner_rows(&self) -> [Vec<crate::calls::Row>; 2] {
        use crate::resources::rows::holders;
        [holders([0; 3], &self.allocated.mmio), holders([0; 3], &self.allocated.pio)]
    }
}
