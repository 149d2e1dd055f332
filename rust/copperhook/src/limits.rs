//! The most of each that a job may have, and how much a standard pair set and a job sheet take at most.

/// The most vertices of a graph.
pub const VERTICES: usize = 1024;
/// The most edges that a graph is given, dropped ones too.
pub const EDGES: usize = 4096;
/// The most pairs of a job.
pub const PAIRS: usize = 256;
/// The most betas of a call.
pub const BETAS: usize = 64;
/// The widest window that is swept.
pub const WINDOW: usize = 24;
/// The widest window of a call of the bench tester's.
pub const TESTER_WINDOW: usize = 12;
/// The most free edges of a call of the bench tester's that goes through all configurations.
pub const TESTER_FREE: usize = 16;
/// The most free edges of a call that stores every correlation.
pub const STORED_FREE: usize = 24;
/// The most lists of a call for shares.
pub const SHARE_LISTS: usize = 256;
/// The most entries of one of these lists.
pub const SHARE_ENTRIES: usize = 1 << 24;
/// The most pairs of a standard pair set.
pub const STANDARD_PAIRS: usize = 18;
/// The most bytes that the labels of a standard pair set take, each with the zero byte behind it.
pub const LABEL_BYTES: usize = 306;
/// The longest job sheet that is written: that of a job with the most edges, betas and pairs.
pub const SHEET_BYTES: usize = 55_109;
