
// Collects all owner tables; stands behind the end of the file of this name in the `opened` tree only.

impl AllocationState<'_> {
    /// All owner tables as rows.
    pub(super) fn owner_rows(&self) -> crate::calls::Seven {
        let [mmio, pio] = self.addresses.owner_rows();
        let [device, event, lpi] = self.msi.owner_rows();
        [mmio, pio, self.wired.owner_rows(), self.host_irqs.owner_rows(), device, event, lpi]
    }
}
