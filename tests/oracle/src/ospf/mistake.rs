//! Wrong ways to take in a run. A fault turns one on: `Fault::Import`. That a cause is
//! not looked at is said by `Fault::ImportCauseIgnored`, and what goes wrong where a file
//! is put into a buffer by `Fault::OF_FILES`.

use super::cause::Cause;
use crate::fault::{Context, Fault};

listed! {
    /// One way to take in a run wrongly.
    pub enum Mistake {
        // Which refusal, and its value.
        SeventeenAtOnce: "17 is told as soon as the LSAs so far are over a limit, before later ones are judged",
        BufferTriedFirst: "a buffer shorter than every file is 17 before an LSA is judged",
        EmptyRunSixteen: "an empty run is 16, value 0",
        LastBadReturned: "16 returns the last bad LSA",
        CountedFromOne: "16 returns the bad LSA counted from 1",
        OffsetReturned: "16 returns the offset of the bad LSA",
        SixteenReturnsZero: "16 returns 0",
        SixteenReturnsOneByte: "16 returns the lower byte of its value",
        SeventeenReturnsCount: "17 returns the number of LSAs",
        SixtyFourRoutersRefused: "64 routers are 17",
        LinksOneLessRefused: "128 links are 17",
        PrefixesOneLessRefused: "128 prefixes are 17",
        EightAttachmentsRefused: "a prefix with eight attachments is 17",
        DroppedLinksCounted: "one-sided links count among the 128",
        StubEntriesCounted: "the limit of 128 prefixes is one of stub links",
        AttachmentEntriesCounted: "the limit of eight attachments is one of stub links",
        NinthAttachmentDropped: "attachments after the eighth are dropped",

        // What is judged that should not be, or not as it should be.
        CountOfOneByte: "of the count of links the lower byte is read",
        RestOfRunIgnored: "fewer bytes than an LSA header at the end are ignored",
        MaxAgeRefused: "an LSA of age 3600 or above is 16",
        AgeOverMaxAgeRefused: "an LSA of an age above 3600 is 16",
        AdvertisingRouterCompared: "an LSA whose Advertising Router is not its Link State ID is 16",
        NamedBeforeByAdvertisingRouter: "an LSA whose Advertising Router an earlier one has is 16",
        ItselfByAdvertisingRouter: "a point-to-point link to the Advertising Router is 16",
        FlagsJudged: "an LSA with a flag other than V, E and B is 16",
        VirtualFlagRefused: "an LSA with the flag V is 16",
        ZeroByteJudged: "an LSA whose byte after the flags is not 0 is 16",
        SequenceJudged: "an LSA with the reserved sequence number is 16",
        SeveralToOneOnlyIfThere: "several links to one router are 16 only if that router has an LSA",
        SeveralStubsRefused: "two stub links of one router for one network and mask are 16",
        StubMetricZeroRefused: "a stub link with metric 0 is 16",
        StubOfOwnIdRefused: "a stub link whose network is the Link State ID is 16",
        NoLinksRefused: "an LSA without a link is 16",
        OneSidedRefused: "a one-sided link is 16",

        // The checksum.
        FletcherWithAge: "the Fletcher sums take in the age",
        FletcherWithoutLastByte: "the Fletcher sums leave out the last byte",
        FletcherOfHeader: "the Fletcher sums are over the header",
        FletcherModulo256: "the Fletcher sums are taken modulo 256",
        FletcherOf16Bits: "the Fletcher sums are taken modulo 65,536 before they are modulo 255",
        FletcherOf32Bits: "the Fletcher sums are taken modulo 4,294,967,296 before they are modulo 255",
        FletcherFirstSumOnly: "only the first Fletcher sum is looked at",
        FletcherSecondSumOnly: "only the second Fletcher sum is looked at",
        FletcherMadeAnew: "the checksum is made anew and compared, so that a byte 0 for 255 is wrong",

        // Routers.
        RoutersInRunOrder: "routers are numbered in the order of the run",
        RoutersDescending: "routers are numbered by descending Link State ID",
        RoutersByAdvertisingRouter: "routers are numbered by Advertising Router",
        RoutersLeastByteFirst: "Link State IDs are compared least byte first",
        RoutersSigned: "Link State IDs are compared as signed numbers",
        MaxAgeDropped: "an LSA of age 3600 or above is dropped",
        RouterWithoutLsaNumbered: "a router that only links name has a number",
        LoneRouterDropped: "a router without a point-to-point link has no number",
        OutOfReachDropped: "a router that the lowest one cannot reach has no number",

        // Links.
        OneSidedKept: "a one-sided link is kept, with its metric both ways",
        OtherMetricDropped: "a link whose two metrics differ is dropped",
        MaxMetricDropped: "a link with metric 65,535 is dropped",
        HigherRouterAsA: "the higher router of a link is a",
        CostsTurned: "the costs of a link are in the other order",
        CostOfLowerBothWays: "both costs of a link are those of the lower router",
        LinksByHigherFirst: "links are ordered by the higher router, then the lower",
        LinksInRunOrder: "links are in the order of the run",
        LinksInTwice: "a link stands in the file twice, once from each side",
        MetricsLeastByteFirst: "metrics are read least byte first",

        // Prefixes.
        HigherMetricKept: "two stub links of one router keep the higher metric",
        FirstMetricKept: "two stub links of one router keep the metric of the first",
        LastMetricKept: "two stub links of one router keep the metric of the last",
        BothStubsKept: "two stub links of one router are two attachments",
        StubMetricZeroDropped: "a stub link with metric 0 is dropped",
        NetworkMasked: "the network of a stub link is taken with its mask only",
        MaskNotCompared: "stub links of one network are one prefix, whatever the mask",
        PrefixOfEachRouter: "each router has its own prefix for a network and mask",
        PrefixesByMaskFirst: "prefixes are ordered by mask, then network",
        PrefixesInRunOrder: "prefixes are in the order of the run",
        PrefixesSigned: "networks are compared as signed numbers",
        AttachmentsInRunOrder: "attachments are in the order of the run",
        AttachmentsByCost: "attachments are ordered by cost",
        HostRoutesDropped: "a stub link with the mask 255.255.255.255 is dropped",
        DefaultRouteDropped: "a stub link to the network 0.0.0.0 with the mask 0.0.0.0 is dropped",
    }
}

impl Context {
    /// Whether a mistake is turned on.
    pub fn has_mistake(&self, mistake: Mistake) -> bool {
        self.has(Fault::Import(mistake))
    }
}

impl Fault {
    /// The ways to take in a run wrongly. They stand apart from `Fault::all`, the ways to
    /// answer the questions about a file.
    pub fn of_import() -> Vec<Fault> {
        let mistakes = Mistake::ALL.iter().copied().map(Fault::Import);
        mistakes.chain(Cause::ALL.iter().copied().map(Fault::ImportCauseIgnored)).collect()
    }
}
