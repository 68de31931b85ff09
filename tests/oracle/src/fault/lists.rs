//! Faults that belong together.

use super::{Fault, Limit};
use crate::row::Cause;

impl Fault {
    /// No first hop is left out, as it was before there was maintenance.
    pub const NOTHING_LEFT_OUT: Fault = Fault::LimitLoose(Limit::FirstHopCost);

    /// The ways to take links under maintenance wrongly.
    pub const OF_MAINTENANCE: [Fault; 7] = [
        Fault::NOTHING_LEFT_OUT,
        Fault::LimitTight(Limit::FirstHopCost),
        Fault::MaintenanceTowardsS,
        Fault::MaintenanceNotWalked,
        Fault::MaintenanceNotThere,
        Fault::ExtendedPOfEveryNeighbour,
        Fault::PairsOfEveryNeighbour,
    ];

    /// The ways to take routers attached to a prefix wrongly.
    pub const OF_ATTACHED: [Fault; 14] = [
        Fault::AttachedPassed,
        Fault::AttachedMayStepOn,
        Fault::DeliveredWhereTight,
        Fault::TunnelJudgedToAttached,
        Fault::TunnelPlayedToAttached,
        Fault::AttachedSRepaired,
        Fault::PrefixAvoidedBySums,
        Fault::CrossingOneHop,
        Fault::CrossingTwoHops,
        Fault::AttachedPlayedOn,
        Fault::AttachedAtOwnCost,
        Fault::OnlyFirstSlotDelivers,
        Fault::UnusedSlotsDeliver,
        Fault::DearestDeliversNot,
    ];

    /// The ways to take node protection wrongly.
    pub const OF_NODES: [Fault; 24] = [
        Fault::NodeNotLookedAt,
        Fault::FourForProtecting,
        Fault::LinkClassesBelowFour,
        Fault::PlanClassesBelowFour,
        Fault::ClassToldModulo4,
        Fault::NodeBeforeRank,
        Fault::OnlyNodeProtectingServe,
        Fault::TouchedByVisit,
        Fault::SpacesMissE,
        Fault::RouteMissesE,
        Fault::OnlyFirstLegVisits,
        Fault::OnlySecondLegVisits,
        Fault::VisitToS,
        Fault::VisitTowardsE,
        Fault::VisitBySums,
        Fault::VisitTunnelToAttached,
        Fault::DeliveryNotVisited,
        Fault::EndNotVisited,
        Fault::OnlyEndVisited,
        Fault::StartNotVisited,
        Fault::VisitOneShortestPath,
        Fault::VisitOnEveryWalk,
        Fault::VisitOneHop,
        Fault::VisitTwoHops,
    ];

    /// The ways to send a packet on by something else than a usual step or a neighbour
    /// repair that is downstream. With each some packet visits a router twice.
    pub const OF_FAILURES: [Fault; 5] = [
        Fault::NotDownstreamSent,
        Fault::TunnelSentPlain,
        Fault::OtherPrefixStepSent,
        Fault::LinkRepairSent,
        Fault::SendsByTwoFiles,
    ];

    /// Whether no call shows the fault. Each leg of a pair starts at n or y, and neither
    /// is E, so that the first shows in the visits of a walk alone. The others show in
    /// the trails of packets.
    pub fn is_in_no_call(self) -> bool {
        self == Fault::StartNotVisited || Fault::OF_FAILURES.contains(&self)
    }

    /// The ways to add the check up wrongly.
    pub const OF_CHECK: [Fault; 7] = [
        Fault::CheckOver254Words,
        Fault::CheckOver62Numbers,
        Fault::CheckWithoutLeftOver,
        Fault::CheckOfTwoLanes,
        Fault::CheckMostByteFirst,
        Fault::CheckCarriesOver,
        Fault::CheckCarryAddedBack,
    ];

    /// The ways to take ranks wrongly.
    pub const OF_RANKS: [Fault; 38] = [
        Fault::ClassOfRank,
        Fault::RankOfNextClass,
        Fault::RankOfTurnedClass,
        Fault::RankOfOtherHalf,
        Fault::RankOfClassModulo4,
        Fault::RouteRankOfClassModulo4,
        Fault::HighestRankFirst,
        Fault::ClassBeforeRank,
        Fault::RankToldAsClass,
        Fault::LinkRepairAscending,
        Fault::PrefixRepairAscending,
        Fault::RouteAscending,
        Fault::PlanDescending,
        Fault::FourRanksTaken,
        Fault::FourRanksOnly,
        Fault::RanksJudgedToFour,
        Fault::RanksInSetOf8,
        Fault::RanksInSetOf32,
        Fault::RanksInSetOf64,
        Fault::RanksJudgedBySum,
        Fault::RanksTriedFirst,
        Fault::RanksTriedLast,
        Fault::RanksTriedForPair,
        Fault::FifteenFills,
        Fault::FifteenReturnsEight,
        Fault::RowDropped(15),
        Fault::RowsSwapped(11),
        Fault::RowsSwapped(15),
        Fault::CauseIgnored(Cause::RanksShort),
        Fault::CauseIgnored(Cause::RanksLong),
        Fault::CauseIgnored(Cause::RankOver),
        Fault::CauseIgnored(Cause::RankTwice),
        Fault::LimitLoose(Limit::LeastRanks),
        Fault::LimitLoose(Limit::MostRanks),
        Fault::LimitLoose(Limit::Rank),
        Fault::LimitTight(Limit::LeastRanks),
        Fault::LimitTight(Limit::MostRanks),
        Fault::LimitTight(Limit::Rank),
    ];

    /// The ways to take tables wrongly: in a second call, and where a single call fills
    /// its work area as the two calls one after the other would.
    pub const OF_TABLES: [Fault; 24] = [
        Fault::TableDiagonalNotCompared,
        Fault::TableLastRowNotCompared,
        Fault::TableUnreachableNotCompared,
        Fault::TableOnlyRowOfS,
        Fault::TableOnlySlack,
        Fault::TableOnlyTight,
        Fault::TableDiagonalFree,
        Fault::TableBeyondCompared,
        Fault::TableByDestination,
        Fault::TableIgnored,
        Fault::TableTriedAfterRanks,
        Fault::TableTriedLast,
        Fault::TableLengthExact,
        Fault::EighteenReturnsCell,
        Fault::EighteenWritesRoute,
        Fault::RowDropped(18),
        Fault::RowsSwapped(10),
        Fault::RowsSwapped(18),
        Fault::CauseIgnored(Cause::TableShort),
        Fault::CauseIgnored(Cause::TableOther),
        Fault::LimitLoose(Limit::Table),
        Fault::LimitTight(Limit::Table),
        Fault::RouteBufferTriedFirst,
        Fault::FilledBeforeQuestion,
    ];

    /// The ways to make a drill wrongly.
    pub const OF_DRILLS: [Fault; 18] = [
        Fault::DrawOfLowerBits,
        Fault::DrawOfOldValue,
        Fault::DrawOf15Bits,
        Fault::DrawNotReduced,
        Fault::DrawWithoutSum,
        Fault::DrillModulo99,
        Fault::DrillCostFromZero,
        Fault::DrillBackFirst,
        Fault::DrillAllForthFirst,
        Fault::DrillLastLinkFirst,
        Fault::DrillOneDrawForLink,
        Fault::DrillLastLinkForgotten,
        Fault::DrillLastLinkTurned,
        Fault::DrillWithPrefix,
        Fault::LimitLoose(Limit::LeastDrillRouters),
        Fault::LimitLoose(Limit::MostDrillRouters),
        Fault::LimitTight(Limit::LeastDrillRouters),
        Fault::LimitTight(Limit::MostDrillRouters),
    ];

    /// The ways to write a file wrongly, a drill or a network.
    pub const OF_FILES: [Fault; 7] = [
        Fault::FilePartWritten,
        Fault::FileByteBeyond,
        Fault::FileNotWrittenClears,
        Fault::FileCountOfBlocks,
        Fault::FileCheckForgotten,
        Fault::LimitLoose(Limit::FileBuffer),
        Fault::LimitTight(Limit::FileBuffer),
    ];

    /// The ways to take a network wrongly that is to be written.
    pub fn of_writing() -> Vec<Fault> {
        let mut faults = Cause::OF_NETWORKS.map(Fault::WrittenThough).to_vec();
        faults.extend([Fault::WriteCostsTurned, Fault::WriteUnusedSlots, Fault::WriteUnusedJudged]);
        faults
    }

    /// The faults that no link repair, prefix repair or route shows while the
    /// ranks ascend: a pair whose endpoint is S or E, whose tunnel crosses the link
    /// from E to S, or whose tunnel passes an attached router before it comes to E,
    /// then stands behind a serving pair of a lower class.
    pub const BEHIND_OTHERS: [Fault; 4] = [
        Fault::EndpointMayBeS,
        Fault::EndpointMayBeE,
        Fault::OnlySToETested,
        Fault::VisitTunnelToAttached,
    ];
}
