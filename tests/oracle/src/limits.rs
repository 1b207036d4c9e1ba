//! Document 01's limits. Each stands here once; what follows from them is worked out.

/// Of a book: kinds, productions, a kind's settings, a production's children and pairs.
pub const KINDS: usize = 32;
pub const PRODUCTIONS: usize = 64;
pub const SETTINGS: usize = 8;
pub const CHILDREN: usize = 4;
pub const PAIRS: usize = 255;

/// Bytes of its trailer, and of the largest one.
pub const TRAILER: usize = 12;
pub const LARGEST_BOOK: usize = 2 * KINDS + PRODUCTIONS * (3 + CHILDREN + 2 * PAIRS) + TRAILER;

/// Members of a set, and so the places that a kind has for it.
pub const MEMBERS: usize = 64;

/// Bytes of a down entry: a label for each occurrence, then a feasible rank for each child.
pub const LABELS: usize = (1 + CHILDREN) * SETTINGS;
pub const ENTRY: usize = LABELS + CHILDREN;

/// Of a sheet: bytes, so nodes, and levels.
pub const SHEET: usize = 4_096;
pub const LEVELS: usize = 64;

/// The room of the program `groups`: input bytes, up entries, down entries, nodes.
pub const INPUT: usize = 2 + SHEET + LARGEST_BOOK;
pub const UP_ENTRIES: usize = 8_192;
pub const DOWN_ENTRIES: usize = 1_489;
pub const NODES: usize = 2_730;
