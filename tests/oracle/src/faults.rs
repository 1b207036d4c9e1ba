//! Deliberate faults. With the feature `faults` the variable ORACLE_FAULT names the one that is
//! made; without it none can be.

/// Slips that an implementer might make in the two checks, which C calls too.
pub const IN_CHECKS: &[&str] = &[
    "edition-byte",
    "start-as-child",
    "equal-pairs",
    "pairs-before-kinds",
    "early-end-place",
    "leftover",
    "leftover-22",
    "level-first",
    "kinds-less",
    "kinds-more",
    "productions-less",
    "productions-more",
    "children-less",
    "children-more",
    "levels-less",
    "levels-more",
    "sheet-less",
    "sheet-more",
];

/// Those that one might make in the other calls.
const IN_CALLS: &[&str] = &[
    "own-direction",
    "only-neighbours",
    "falling-ranks",
    "down-not-zeroed",
    "unused-places-stay",
    "two-places",
    "early-writes",
    "upward-from-first",
    "feasible-from-0",
    "bad-rank-at-child",
    "modulo-256",
    "last-earlier",
    "ranks-as-labels",
    "label-255",
    "stop-at-empty",
    "weights-exchanged",
    "tail-touched",
    "thirteen-first",
    "counts-past-n",
    "root-rank-unchecked",
    "across-instances",
    "entry-wraps",
    "children-reversed",
    "nine-after-sheet",
    "room-after-tables",
    "members-less",
    "members-more",
    "count-less",
    "count-more",
];

/// And in the program `groups`.
const IN_PROGRAM: &[&str] = &[
    "sheet-over-4096-is-30",
    "room-for-4096-nodes",
    "input-less",
    "input-more",
    "up-room-less",
    "up-room-more",
    "down-room-less",
    "down-room-more",
    "node-room-less",
    "node-room-more",
];

/// Those that a call can have.
pub fn of_calls() -> Vec<&'static str> {
    [IN_CHECKS, IN_CALLS].concat()
}

/// All of them.
pub fn names() -> Vec<&'static str> {
    [IN_CHECKS, IN_CALLS, IN_PROGRAM].concat()
}

/// Whether the fault of this name is to be made.
#[cfg(feature = "faults")]
pub fn wrong(name: &str) -> bool {
    use std::sync::OnceLock;
    static CHOSEN: OnceLock<String> = OnceLock::new();
    debug_assert!(names().contains(&name), "{name} is not listed");
    CHOSEN.get_or_init(|| std::env::var("ORACLE_FAULT").unwrap_or_default()) == name
}

/// A limit, one less or one more under the faults of that name.
#[cfg(feature = "faults")]
pub fn limit(name: &str, most: usize) -> usize {
    let less = wrong(&format!("{name}-less")) as usize;
    let more = wrong(&format!("{name}-more")) as usize;
    most + more - less
}

#[cfg(not(feature = "faults"))]
#[inline(always)]
pub fn wrong(_name: &str) -> bool {
    false
}

#[cfg(not(feature = "faults"))]
#[inline(always)]
pub fn limit(_name: &str, most: usize) -> usize {
    most
}
