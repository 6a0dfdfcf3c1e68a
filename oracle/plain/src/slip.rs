//! Slips that a reader of document 01 might make, seeded by tests alone to
//! show that the comparisons tell them apart.

#[derive(Clone, Copy, Debug, PartialEq, Eq)]
pub enum Slip {
    /// A half's members get the epoch of the cut as their stamp.
    RestampedAtCut,
    /// One quorum test for both halves together.
    OneQuorumTest,
    /// A place is filled after a rotation party leaves.
    FilledAfterParty,
    /// A cohort sends S/2 rounded down to the left.
    CohortLeftSmaller,
    /// Waiting keepers are shuffled only where they are needed.
    WaitingUnshuffled,
    /// A pool draw seats its machine ready.
    DrawnReady,
    /// Resolve counts the rotations open when the call began.
    OpenAtTheStart,
    /// The terminal is this epoch, not the next.
    TerminalNow,
    /// The call that stamps drain-by schedules too.
    NoDrainWait,
    /// Keepers are stamped at the merge's cut.
    KeepersRestamped,
    /// Keepers keep their own ready.
    KeepersOwnReady,
    /// Observers are seated waiting at the cut.
    SeatReadyForgotten,
    /// Rotations in flight are counted on all shards.
    InFlightEverywhere,
    /// Ready only past the deadline.
    DeadlineLate,
    /// The merged boundary takes the left child's height.
    LeftHeight,
    /// A scheduled split's leaver is replaced.
    ScheduledRefilled,
    /// An aborted rotation's entrant stays.
    AbortKeepsEntrant,
    /// Every committee member goes into a half, seated there or not.
    HalvesOfAllMembers,
}

impl Slip {
    pub const ALL: [Self; 18] = [
        Self::RestampedAtCut,
        Self::OneQuorumTest,
        Self::FilledAfterParty,
        Self::CohortLeftSmaller,
        Self::WaitingUnshuffled,
        Self::DrawnReady,
        Self::OpenAtTheStart,
        Self::TerminalNow,
        Self::NoDrainWait,
        Self::KeepersRestamped,
        Self::KeepersOwnReady,
        Self::SeatReadyForgotten,
        Self::InFlightEverywhere,
        Self::DeadlineLate,
        Self::LeftHeight,
        Self::ScheduledRefilled,
        Self::AbortKeepsEntrant,
        Self::HalvesOfAllMembers,
    ];
}
