//! The deliberate mistakes that the plain reading can make, one at a time: the comparison has to notice each of them.

macro_rules! slips {
    ($($name:ident)*) => {
        #[derive(Clone, Copy, Debug, PartialEq, Eq)]
        pub enum Slip {
            None,
            $($name,)*
        }

        /// Every slip but none.
        pub const SLIPS: &[Slip] = &[$(Slip::$name,)*];
    };
}

slips! {
    // leaves and the kept list
    RoundHalfDown
    RoundFloorOfHalf
    StepOver256
    LeastNumeric
    ReadBackWithoutLeast
    ShortListOneBlock
    BlocksRoundedUp
    GreaterPackedFirst
    ZerosEqualInOrder
    // clusters
    CountInDouble
    ExactLastGreatest
    NoDotLastCentroid
    ExcludeDissolvedExact
    DissolvedTakesItself
    FirstGreatestApproximate
    CutSmallestTerms
    SurvivorsWithoutGroupLeftOut
    AllCompeteAgain
    GroupsBySlot
    RepeatedIdCountsOnce
    DissolveBelowMinimum
    DissolveAgain
    CentroidsInSlotOrder
    DocumentsInListOrder
    // summaries
    MaximumLaterEqual
    MaximumByTotalOrder
    SummaryZerosEqual
    EnergyOneLater
    EnergyStrictly
    EnergyTotalByComponent
    TiesToGreaterComponent
    // refusals and buffers of a build: only the proved function shows these
    TermsBeforeDocuments
    AllDocumentsLookedAt
    UnusedCentroidsLookedAt
    CentroidsOfEmptyList
    EmptySummaryBeforeScratch
    OutputBeforeEmptySummary
    RefusedLeavesOutput
    AcceptedLeavesScratch
    AcceptedClearsRest
    // searching
    SumsOverDocumentOrder
    SkipAtMost
    WorstOncePerList
    MarkSkipped
    MarkByPosting
    LastOfEqualScoresFirst
    SkipBeforeFull
    NoVisit
    CountVisited
}
