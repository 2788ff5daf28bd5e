
// Reads the input owner table; stands behind the end of the file of this name in the `opened` tree only.

impl WiredAllocator<'_> {
    /// The input owner table as rows.
    pub(super) fn owner_rows(&self) -> Vec<crate::calls::Row> {
        crate::resources::rows::inputs(&self.owners)
    }
}
