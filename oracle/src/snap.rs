//! The source's snapshots aren't compared: its `snap_struct!` lines stand for nothing here.

macro_rules! snap_struct {
    ($($fields:tt)*) => {};
}
pub(crate) use snap_struct;
