
// The way in to the owner tables; stands behind the end of the file of this name in the `opened` tree only.

/// The owner rows of begun allocators: domains ascending, each domain's rows in the original's order.
pub fn owner_rows(bare: &bare::Bare) -> crate::calls::Seven {
    bare.live.as_ref().expect("begun").state.owner_rows()
}
