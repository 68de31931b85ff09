//! Fault switches: planners that are wrong on purpose.
//!
//! A test turns on one fault, asks the same questions again and asserts that
//! the answers differ. So the test shows that it would notice such a planner.
//! With no fault turned on the program follows document 01.

mod lists;

use crate::ospf::{self, Mistake};
use crate::row::{self, Cause};

listed! {
    /// A number that a row compares something with.
    pub enum Limit {
        Blocks: "13 blocks in a file",
        LeastRouters: "at least 1 router",
        Routers: "at most 64 routers",
        Links: "at most 128 links",
        Prefixes: "at most 128 prefixes",
        LinkRouter: "a link's routers are below N",
        LinkCost: "a link's costs are at least 1",
        LeastAttachments: "at least 1 attachment",
        Attachments: "at most 8 attachments",
        AttachedRouter: "an attached router is below N",
        WorkArea: "the work area has at least N x N cells",
        Table: "the table has at least N x N cells",
        RouteBuffer: "the route buffer has at least 2 x N bytes",
        LinkNumber: "a question's link is below L",
        EndNumber: "a question's end is at most 1",
        PrefixNumber: "a question's prefix is below their count",
        LinkEntry: "the number of a link entry is below L",
        PrefixEntry: "the number of a prefix entry is below the count of prefixes",
        FirstHopCost: "the cost from S to a first hop is below 65,535",
        LeastRanks: "there are at least eight ranks",
        MostRanks: "there are at most eight ranks",
        Rank: "a rank is at most 7",
        LeastDrillRouters: "a drill has at least 3 routers",
        MostDrillRouters: "a drill has at most 64 routers",
        FileBuffer: "the buffer has at least the bytes of the file written into it",
    }
}

macro_rules! faults {
    ($($value:ident: $words:literal,)+) => {
        /// One way to be wrong.
        #[derive(Clone, Copy, Debug, PartialEq, Eq, PartialOrd, Ord, Hash)]
        pub enum Fault {
            $(#[doc = $words] $value,)+
            /// The row of this number (1 to 15, or 18) is not tried.
            RowDropped(u8),
            /// This row (any but 14) and the one tried next are tried in the
            /// other order.
            RowsSwapped(u8),
            /// The row (2, 5, 6, 7, 8 or 9) returns the last such place, not the first.
            LastSuch(u8),
            /// One cause of a row is not looked at.
            CauseIgnored(Cause),
            /// A limit is one too generous, as by `<=` for `<`.
            LimitLoose(Limit),
            /// A limit is one too strict, as by `<` for `<=`.
            LimitTight(Limit),
            /// The key of this number (1 to 5) is left out of the order of pairs.
            KeyDropped(u8),
            /// This key and the next one (1 to 4) change places.
            KeysSwapped(u8),
            /// A network is written though this cause puts it outside the limits.
            WrittenThough(Cause),
            /// A run of LSAs is taken in with this mistake.
            Import(Mistake),
            /// One cause that turns a run of LSAs away is not looked at.
            ImportCauseIgnored(ospf::Cause),
        }

        impl Fault {
            /// The faults that stand alone, without a number or a cause.
            const PLAIN: &'static [Fault] = &[$(Fault::$value,)+];

            fn plain_words(self) -> Option<&'static str> {
                match self {
                    $(Fault::$value => Some($words),)+
                    _ => None,
                }
            }
        }
    };
}

faults! {
    // The wrong planners of "How far each contract reaches", c.
    SoundFileTurnedDown: "a file that no row refuses is refused as 1",
    FourteenBeforeSearch: "where a pair is to be searched for, the answer is 14 at once",
    FourteenAlways: "every repair and route question that all other rows let pass is 14",
    EveryPrefixUntouched: "every reachable prefix is called untouched",
    EveryPrefixUnreachable: "every prefix is called unreachable",
    AlwaysSamePair: "every search names the pair 3, 2 of ring 4",
    OnlyFirstBlockJudged: "no row looks at a block after the head",
    OnlyFirstLegJudged: "a pair serves when its first hop avoids to its endpoint",
    WorkAreaUntouched: "the work area is left as it was",
    RouteCountWrong: "a route's count is one more than the routers written",

    // "Mistakes that look like repairs".
    OneShortestPath: "only one of the equal shortest walks is tested",
    OnlySToETested: "a walk over the link from E to S counts as avoiding",
    QTowardsS: "Q and the link repair's second leg are towards S instead of E",
    CostsWrongWayRound: "the cost from a to b is taken from b to a, and the reverse",
    StoredBeforeTested: "a ninth attachment is accepted and overwrites the first one's cost",

    // The reader.
    CheckOver254Words: "the check leaves out the last of the 255 words",
    CheckOf8Bits: "the check is compared in its lower byte only",
    CheckOver62Numbers: "the check leaves out the last of the 63 numbers of eight bytes",
    CheckWithoutLeftOver: "the check leaves out the six bytes after the numbers of eight bytes",
    CheckOfTwoLanes: "the check leaves out the upper two words of every number of eight bytes",
    CheckMostByteFirst: "the check adds up words that are read most byte first",
    CheckCarriesOver: "the check adds up numbers of eight bytes whole, so that a word carries into the next",
    CheckCarryAddedBack: "the check adds a carry back in, as a sum modulo 65,535 does",
    FieldsMostByteFirst: "costs are read most byte first",
    NumberAndValueSwapped: "a refusal's number and value change places",
    BlocksPresentReturned: "row 4 returns the number of blocks present",
    EndReturned: "row 12 returns 0 for a bad end",
    HighestCostTurnedDown: "a link cost of 65,535 is refused",
    UnusedSlotsNamed: "row 9 counts router 0 of the unused slots as named",
    EntryShort: "an entry's part lacks its last byte",
    EntryOfRefusedFile: "an entry of a refused file is handed back",
    EntryFromBlockStart: "an entry's part starts four bytes early",

    // Distances and the work area.
    RowsByDestination: "the work area's rows are by destination",
    CellBeyondWritten: "the cell after the N x N cells is written",
    RoundTooFew: "paths of N - 1 hops are not looked at",
    OnlyForthRelaxed: "distances use links from a to b only",
    UnreachableWraps: "the unreachable distance plus a cost wraps round",
    FilledBeforeQuestion: "the distances are written before rows 11, 15, 12 and 13 are tried",
    UntouchedLeavesWorkArea: "untouched and unreachable leave the work area as it was",
    FourteenLeavesWorkArea: "14 leaves the work area as it was",
    RefusalTouchesBuffers: "a refusal by any row but 14 clears the first cell and the first byte",

    // Walks and spaces.
    UnreachableAvoids: "a router that cannot be reached counts as avoided to",
    OnlyFirstAttachment: "a prefix is taken to be at its first attachment only",
    EndsReversed: "end 0 makes b the repairing router",
    FarEndAsFirstHop: "E is allowed as first hop",
    OwnPAdded: "extended P takes in S's own P",
    SLeftOutOfSpaces: "S is in no space",
    SetOffByOne: "router r is the bit of weight 2 to the power r + 1",
    SizeOfComplement: "the size counts the zeros of a set",
    SizeOf32Bits: "the size counts the lower 32 bits only",

    // Links under maintenance. A limit one too generous leaves nothing out, as
    // it was before; one too strict leaves out 65,534 too.
    MaintenanceTowardsS: "a first hop is left out by the cost from it to S",
    MaintenanceNotWalked: "no walk steps over a link at a cost of 65,535",
    MaintenanceNotThere: "a hop of cost 65,535 is in no path and in no walk",
    ExtendedPOfEveryNeighbour: "extended P takes in what a neighbour at 65,535 avoids to",
    PairsOfEveryNeighbour: "pairs have neighbours at 65,535 as first hops; extended P has not",

    // Attached routers deliver. The first is how it was before: an attached router
    // delivers where its own cost is D(x,p), and steps on where a step is tight.
    AttachedPassed: "a walk passes an attached router where a step is tight, and ends where its cost is",
    AttachedMayStepOn: "an attached router delivers, however dear, or steps on",
    DeliveredWhereTight: "an attached router delivers only where its own cost is D(x,p)",
    TunnelJudgedToAttached: "a tunnel is judged as far as the first router attached to the prefix",
    TunnelPlayedToAttached: "a tunnel is played as far as the first router attached to the prefix",
    AttachedSRepaired: "a prefix is repaired at an attached S whose step to E is tight",
    PrefixAvoidedBySums: "sums of distances over the link decide avoiding to a prefix",
    CrossingOneHop: "of a walk towards a prefix only the first hop is looked at",
    CrossingTwoHops: "of a walk towards a prefix only the first two hops are looked at",
    AttachedPlayedOn: "a played route may go on from an attached router",
    AttachedAtOwnCost: "D(x,p) of an attached router x is its own cost",
    OnlyFirstSlotDelivers: "only the router of a prefix's first attachment delivers",
    UnusedSlotsDeliver: "router 0 delivers where a slot of the prefix is not used",
    DearestDeliversNot: "an attachment at a cost of 65,535 does not deliver",

    // Repairs.
    ClassNotStrict: "the class test is D(y,t) <= D(S,t)",
    ClassWithoutTunnel: "the class does not add 2 for a tunnel",
    OnlySecondLegJudged: "a pair serves when its endpoint avoids to the target",
    TunnelCostByDistance: "the tunnel cost takes D(S,n) for the cost S to n",
    TunnelCostWithoutHop: "the tunnel cost leaves out the cost S to n",
    FourteenBeforeUnreachable: "14 is tried before unreachable",
    FourteenBeforeUntouched: "14 is tried before untouched",
    UntouchedBeforeUnreachable: "untouched is tried before unreachable",
    PrefixRepairTowardsE: "a prefix repair is the link's own repair",
    EndpointMayBeS: "S is allowed as endpoint",
    EndpointMayBeE: "E is allowed as endpoint",

    // Node protection. The first is how it was before: no pair has 4 added.
    NodeNotLookedAt: "no pair has 4 added to its class",
    FourForProtecting: "node-protecting pairs have 4 added, and the others have not",
    LinkClassesBelowFour: "a link repair's pairs have no 4 added",
    PlanClassesBelowFour: "the plan prints the classes without the 4",
    ClassToldModulo4: "the answer tells the class modulo 4",
    NodeBeforeRank: "node-protecting pairs come first, whatever the ranks",
    OnlyNodeProtectingServe: "a pair serves a prefix only if it is node-protecting",
    TouchedByVisit: "a prefix is repaired where a walk from S visits E, over whatever link",
    SpacesMissE: "P and extended P hold only routers that are reached without a visit to E",
    RouteMissesE: "a played route does not step to E where it has another option",
    OnlyFirstLegVisits: "visits of the first leg alone are looked at",
    OnlySecondLegVisits: "visits of the second leg alone are looked at",
    VisitToS: "visits to S are looked for, not those to E",
    VisitTowardsE: "the second leg's visits are those of walks towards E, also for a prefix",
    VisitBySums: "sums of distances over E decide whether a walk towards a prefix visits it",
    VisitTunnelToAttached: "a tunnel's visits are looked at as far as the first router attached to the prefix",
    DeliveryNotVisited: "the router that delivers to a prefix is not visited",
    EndNotVisited: "the router that a walk ends at is not visited",
    OnlyEndVisited: "of a walk's routers only the one that it ends at is visited",
    StartNotVisited: "the router that a walk starts at is not visited",
    VisitOneShortestPath: "visits of one of the equal shortest walks alone are looked at",
    VisitOnEveryWalk: "a router counts as visited only where every walk visits it",
    VisitOneHop: "visits are looked for up to the first hop of a walk",
    VisitTwoHops: "visits are looked for up to the second hop of a walk",

    // Several failures together. No call tells what a router sends by: these show in the
    // trails of packets.
    NotDownstreamSent: "routers send by neighbour repairs of the classes 1 and 5 too",
    TunnelSentPlain: "routers send to the first hop of a tunnel whose endpoint is downstream, without the tunnel",
    OtherPrefixStepSent: "routers send by a usual step towards any prefix",
    LinkRepairSent: "routers send by a link's own neighbour repairs of class 4, whatever the prefix",
    SendsByTwoFiles: "routers of odd number send by the costs of another file, that of before maintenance",

    // Ranks: the table's use. That row 15 takes a wrong table, or comes at another
    // place, is said by rows, causes and limits too.
    ClassOfRank: "the table is read the other way: it maps a rank to its class",
    RankOfNextClass: "a class has the rank of the class after it, the last that of the first",
    RankOfTurnedClass: "class 1 has the rank of class 2, class 5 that of class 6, and the reverse",
    RankOfOtherHalf: "a class has the rank of the class 4 above or below it",
    RankOfClassModulo4: "a class from 4 on has the rank of the class 4 below it",
    RouteRankOfClassModulo4: "in a route a class from 4 on has the rank of the class 4 below it",
    HighestRankFirst: "the highest rank is preferred",
    ClassBeforeRank: "the class is compared before the rank",
    RankToldAsClass: "the answer tells the rank for the class",
    LinkRepairAscending: "a link repair has the ranks ascending, whatever is lent",
    PrefixRepairAscending: "a prefix repair has the ranks ascending, whatever is lent",
    RouteAscending: "a route has the ranks ascending, whatever is lent",
    PlanDescending: "the plan has the ranks descending",

    // Ranks: row 15. Before there was node protection there were four ranks.
    FourRanksTaken: "row 15 takes four ranks, 0 to 3 once each, as well as eight",
    FourRanksOnly: "row 15 takes four ranks, 0 to 3 once each, and refuses eight",
    RanksJudgedToFour: "row 15 looks at the first four of eight ranks only",
    RanksInSetOf8: "row 15 looks a rank up in 8 bits, which 8 and 16 go round",
    RanksInSetOf32: "row 15 looks a rank up in 32 bits, which 32 and 64 go round",
    RanksInSetOf64: "row 15 looks a rank up in 64 bits, which 64 goes round",
    RanksJudgedBySum: "row 15 takes eight ranks whose sum is 28 modulo 256",
    RanksTriedFirst: "row 15 is tried before all other rows",
    RanksTriedLast: "row 15 is tried after row 13",
    RanksTriedForPair: "row 15 is tried only where there is a pair to tell",
    FifteenFills: "15 leaves the distances in the work area",
    FifteenReturnsEight: "15 returns 8, the ranks needed",

    // Second calls: which tables row 18 takes. The answer then goes by the numbers of the
    // table, but for the last of these. That the row is not tried is said by `RowDropped`.
    TableDiagonalNotCompared: "row 18 does not look at the cells from a router to itself",
    TableLastRowNotCompared: "row 18 does not look at the row of the last router",
    TableUnreachableNotCompared: "row 18 does not look at cells whose distance is unreachable",
    TableOnlyRowOfS: "row 18 looks at the row of the repairing router S only",
    TableOnlySlack: "row 18 asks for a diagonal of 0 and that no cell is above a cost plus the cell one hop on",
    TableOnlyTight: "row 18 asks for a diagonal of 0 and that each finite cell is some cost plus the cell one hop on",
    TableDiagonalFree: "row 18 asks that each finite cell is the least cost plus cell one hop on, not for a diagonal of 0",
    TableBeyondCompared: "row 18 asks that each cell after the first N x N is 0",
    TableByDestination: "a second call reads the table with row = destination",
    TableIgnored: "a second call takes any table, and goes by the file's distances",

    // Second calls: the order of the rows, the table's length, what 18 returns and writes.
    // That row 18 is tried before row 10, or row 11 before row 18, is said by `RowsSwapped`.
    TableTriedAfterRanks: "row 18 is tried after row 15",
    TableTriedLast: "row 18 is tried after row 13",
    RouteBufferTriedFirst: "row 11 is tried before row 10",
    TableLengthExact: "row 10 refuses a table of more than N x N cells too",
    EighteenReturnsCell: "18 returns the number of the first cell that is not the distance",
    EighteenWritesRoute: "18 clears the first 2 x N bytes of the route buffer",

    // Played routes.
    OptionsDescending: "next routers stand in descending order",
    ModuloFixed: "the option number is the choice byte modulo 4, at most the last option",
    SingleOptionFree: "a single option uses no byte",
    ByteAtEndpoint: "arrival at y uses a byte",
    ByteForFirstHop: "the hop from S to n uses a byte",
    RunOutAs255: "a byte that has run out counts as 255",
    ChoicesStartAgain: "choice bytes that have run out start again",
    EndpointTwice: "y is written twice",
    SLeftOut: "S is not written",
    LaterBytesTouched: "the byte after the route is cleared",
    NothingPlayedWrites: "a route answer without a pair writes S",

    // The plan text.
    PlanNoneOnce: "a plan line for 14 has one `none`",
    PlanEndOneFirst: "a plan has end 1 before end 0",
    PlanHopAndEndpointSwapped: "a plan line has y before n",
    PlanLastNewlineMissing: "a plan lacks its last newline",

    // Drills. How many routers they have is said by limits.
    DrawOfLowerBits: "a draw uses the lower 16 bits",
    DrawOfOldValue: "a draw uses the value before it is replaced",
    DrawOf15Bits: "a draw uses the upper 16 bits but for the highest, as `rand` of C does",
    DrawNotReduced: "a value is not taken modulo 4,294,967,296",
    DrawWithoutSum: "a draw does not add 1,013,904,223",
    DrillModulo99: "a cost of a drill is 1 plus a draw modulo 99",
    DrillCostFromZero: "a cost of a drill is a draw modulo 100, without the 1",
    DrillBackFirst: "the cost b to a of a link is drawn before the cost a to b",
    DrillAllForthFirst: "the costs a to b of all links are drawn before the costs b to a",
    DrillLastLinkFirst: "costs are drawn from the last link to the first",
    DrillOneDrawForLink: "both costs of a link are one draw",
    DrillLastLinkForgotten: "no link of a drill joins N - 1 and 0",
    DrillLastLinkTurned: "the last link of a drill has 0 as router a and N - 1 as router b",
    DrillWithPrefix: "a drill has a prefix at router 0",

    // Files that are written, drills too. A buffer one byte short is said by a limit.
    FilePartWritten: "a buffer that is too short gets the part of the file that fits",
    FileByteBeyond: "the byte after a written file is cleared",
    FileNotWrittenClears: "where nothing is written the first byte is cleared",
    FileCountOfBlocks: "the blocks of a written file are returned, not its bytes",
    FileCheckForgotten: "the checks of a written file are zero",

    // Networks that are written.
    WriteCostsTurned: "a link is written with its two costs in the other order",
    WriteUnusedSlots: "the slots after the attachments of a prefix are written as they stand",
    WriteUnusedJudged: "a network is not written where a cell that no entry speaks of is not zero",
}

impl Fault {
    /// Every fault of the questions; those of the call import are `Fault::of_import`.
    pub fn all() -> Vec<Fault> {
        let mut all = Fault::PLAIN.to_vec();
        all.extend(row::ORDER.map(Fault::RowDropped));
        all.extend(row::ORDER.into_iter().filter(|row| *row != 14).map(Fault::RowsSwapped));
        all.extend([2, 5, 6, 7, 8, 9].map(Fault::LastSuch));
        let causes = Cause::ALL.iter().filter(|cause| cause.row() != 14);
        all.extend(causes.map(|cause| Fault::CauseIgnored(*cause)));
        all.extend(Limit::ALL.iter().map(|limit| Fault::LimitLoose(*limit)));
        all.extend(Limit::ALL.iter().map(|limit| Fault::LimitTight(*limit)));
        all.extend((1..=5).map(Fault::KeyDropped));
        all.extend((1..=4).map(Fault::KeysSwapped));
        all.extend(Cause::OF_NETWORKS.map(Fault::WrittenThough));
        all
    }

    /// The name by which the command line knows the fault.
    pub fn name(self) -> String {
        format!("{self:?}")
    }

    /// The fault of a name.
    pub fn named(name: &str) -> Option<Fault> {
        let all = Fault::all().into_iter().chain(Fault::of_import());
        all.into_iter().find(|fault| fault.name() == name)
    }

    /// What a planner with the fault does, in plain words.
    pub fn words(self) -> String {
        match self {
            Fault::RowDropped(row) => format!("row {row} is not tried"),
            Fault::RowsSwapped(row) => {
                format!("row {} is tried before row {row}", row::next(row).unwrap_or(row))
            }
            Fault::LastSuch(row) => format!("row {row} returns the last such place"),
            Fault::CauseIgnored(cause) => {
                format!("row {} does not look at: {}", cause.row(), cause.words())
            }
            Fault::LimitLoose(limit) => format!("one too generous: {}", limit.words()),
            Fault::LimitTight(limit) => format!("one too strict: {}", limit.words()),
            Fault::KeyDropped(key) => format!("key {key} of the order of pairs is left out"),
            Fault::KeysSwapped(key) => format!("keys {key} and {} change places", key + 1),
            Fault::WrittenThough(cause) => format!("a network is written though {}", cause.words()),
            Fault::Import(mistake) => mistake.words().to_string(),
            Fault::ImportCauseIgnored(cause) => {
                format!("number {} does not look at: {}", cause.number(), cause.words())
            }
            plain => plain.plain_words().unwrap_or_default().to_string(),
        }
    }
}

/// The faults that are turned on; none of them in a sound context.
#[derive(Clone, Debug, Default)]
pub struct Context {
    faults: Vec<Fault>,
}

impl Context {
    /// No fault: the program follows document 01.
    pub fn sound() -> Context {
        Context::default()
    }

    /// These faults, and no other.
    pub fn with(faults: &[Fault]) -> Context {
        Context { faults: faults.to_vec() }
    }

    /// Whether a fault is turned on.
    pub fn has(&self, fault: Fault) -> bool {
        self.faults.contains(&fault)
    }

    /// A limit from above: the limit itself, or one off with a fault.
    pub fn most(&self, limit: Limit, sound: usize) -> usize {
        if self.has(Fault::LimitLoose(limit)) {
            sound + 1
        } else if self.has(Fault::LimitTight(limit)) {
            sound.saturating_sub(1)
        } else {
            sound
        }
    }

    /// A limit from below: the limit itself, or one off with a fault.
    pub fn least(&self, limit: Limit, sound: usize) -> usize {
        if self.has(Fault::LimitLoose(limit)) {
            sound.saturating_sub(1)
        } else if self.has(Fault::LimitTight(limit)) {
            sound + 1
        } else {
            sound
        }
    }
}
