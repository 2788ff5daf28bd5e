
// Reads the host IRQ owner table; stands behind the end of the file of this name in the `opened` tree only.

impl HostIrqAllocator<'_> {
    /// The host IRQ owner table as rows.
    pub(super) fn owner_rows(&self) -> Vec<crate::calls::Row> {
        crate::resources::rows::word_holders([0; 3], &self.owners)
    }
}
