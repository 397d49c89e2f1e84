//! Second routers with one deliberate mistake each: the comparison must find every one of them.

mod left;
mod moving;
mod profiles;
mod right_of_way;
mod slots;
mod taking;
mod whole_table;

use crate::calls::Calls;

pub const MISTAKES: &[(&str, &dyn Calls)] = &[
    ("delivery-counts-before", &left::DeliveryCountsBefore),
    ("delivery-counts-spoiled", &left::DeliveryCountsSpoiled),
    ("move-counts-before", &left::MoveCountsBefore),
    ("move-counts-spoiled", &left::MoveCountsSpoiled),
    ("refused-move-counts", &left::RefusedMoveCounts),
    ("refused-take-counts", &left::RefusedTakeCounts),
    ("take-counts-before", &left::TakeCountsBefore),
    ("cuts-numbers", &moving::CutsNumbers),
    ("code-after-slot", &moving::CodeAfterSlot),
    ("delivers-without-count", &moving::DeliversWithoutCount),
    ("fall-in-a", &moving::FallInA),
    ("highest-slot", &moving::HighestSlot),
    ("hops-to-go", &moving::HopsToGo),
    ("mark-only", &moving::MarkOnly),
    ("spoiled-as-empty", &moving::SpoiledAsEmpty),
    ("adapt-drops-in-b", &profiles::AdaptDropsInB),
    ("adapt-keeps-5", &profiles::AdaptKeepsFive),
    ("clear-cuts-profile", &profiles::ClearCutsProfile),
    ("clear-takes-profile-3", &profiles::ClearTakesThree),
    ("copy-forgets-profile", &profiles::CopyForgetsProfile),
    ("find-in-full", &profiles::FindInFull),
    ("length-before-profile", &profiles::LengthBeforeProfile),
    (
        "oblivious-changes-at-home",
        &profiles::ObliviousChangesAtHome,
    ),
    ("oblivious-prefers-5", &profiles::ObliviousPrefersFive),
    ("profile-not-held", &profiles::ProfileNotHeld),
    ("take-forgets-profile", &profiles::TakeForgetsProfile),
    ("trailer-takes-profile-3", &profiles::TrailerTakesThree),
    ("find-forgets-way", &right_of_way::FindForgetsWay),
    ("no-right-of-way", &right_of_way::NoRightOfWay),
    ("stopped-by-a", &right_of_way::StoppedByA),
    (
        "stopped-by-another-node",
        &right_of_way::StoppedByAnotherNode,
    ),
    ("stopped-by-spoiled", &right_of_way::StoppedBySpoiled),
    ("stopped-by-the-first", &right_of_way::StoppedByTheFirst),
    (
        "stopped-by-the-lowest-held",
        &right_of_way::StoppedByTheLowestHeld,
    ),
    (
        "stopped-by-the-other-code",
        &right_of_way::StoppedByTheOtherCode,
    ),
    ("stopped-in-good-tables", &right_of_way::StoppedInGoodTables),
    ("stopped-on-code-2", &right_of_way::StoppedOnCodeTwo),
    ("stopped-only-with-room", &right_of_way::StoppedOnlyWithRoom),
    ("twelve-after-six", &right_of_way::TwelveAfterSix),
    ("twelve-before-five", &right_of_way::TwelveBeforeFive),
    ("clears-before-table", &taking::ClearsBeforeTable),
    ("depth-zero-refused", &taking::DepthZeroRefused),
    ("full-before-end", &taking::FullBeforeEnd),
    ("reads-at-the-end", &taking::ReadsAtTheEnd),
    ("copy-keeps-payload", &whole_table::CopyKeepsPayload),
    ("copy-length-first", &whole_table::CopyLengthFirst),
    ("find-skips-waiting", &whole_table::FindSkipsWaiting),
    ("skip-count-check", &whole_table::SkipCountCheck),
    ("skip-serial-check", &whole_table::SkipSerialCheck),
];

pub fn named(name: &str) -> Option<&'static dyn Calls> {
    let (_, router) = MISTAKES.iter().find(|(known, _)| *known == name)?;
    Some(*router)
}
