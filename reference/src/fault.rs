//! Faults that can be planted into this implementation, to show that the comparison notices them.
//! Most are the errors that 01 expects someone to try, or what a request of 02 has changed. None is planted unless asked for.

use std::cell::Cell;

/// One deliberate departure from 01 and 02.
#[derive(Clone, Copy, Debug, PartialEq, Eq)]
pub enum Fault {
    /// A nudge that leaves -0 as it is.
    MinusZero,
    /// Children that count from 1.
    ChildrenFromOne,
    /// A tree of 65 steps that passes.
    DepthSixtyFive,
    /// Edges paired that run the same way.
    SameWay,
    /// Nodes counted, but not paths, so that a detached ring passes.
    NodesNotPaths,
    /// A nudge undone by subtraction, which loses -0.
    UndoSubtracts,
    /// A query that says it visited every node.
    AllVisited,
    /// A triangle that holds no point of its border.
    BorderLeftOut,
    /// Names that differ in letter case taken for different names.
    CaseCounts,
    /// Names compared as far as the shorter goes.
    LengthsNotCompared,
    /// Names of one length taken for the same if they begin with the same byte.
    FirstByteAlike,
    /// Work memory left as it was.
    WorkKept,
    /// Work memory of the old size that passes, and so much of it zero on return.
    OldWork,
    /// An adjacency entry that passes for the partner if it is any half-edge's number.
    AnyPartner,
    /// A tree that hangs from node 0 whatever the root field says.
    RootFirst,
    /// A root field that must be 0 where there are no nodes.
    RootOfNone,
    /// An edit that writes a record but no floor after the first.
    RecordOnly,
    /// A paint that writes eight bytes, the next face's material too.
    WidePaint,
    /// An undo that takes out the other bench's latest record where it has one.
    OtherBenchTakenOut,
    /// An undo that takes out the latest record of all.
    LatestOfAll,
    /// An undo that does not ask whether the other bench has changed the field since.
    BlockedNotAsked,
    /// A bench's half that is counted by f, so that the other bench uses it up.
    HalfByF,
    /// A record taken out without moving later ones down.
    HoleLeft,
    /// Later records moved down one byte too little.
    OneByteOff,
    /// A put-back that leaves no record of either bench.
    PutBackClearsF,
    /// A stopped put-back that answers f as handed in.
    StoppedPutBack,
    /// A bench 2 that passes.
    BenchTwo,
    /// A corner mended to the highest vertex with equal coordinates.
    HighestEqual,
    /// Coordinates taken for equal by their bits, so that -0 is not 0.
    EqualByBits,
    /// A corner mended to the lowest equal vertex that a face uses.
    LowestUsed,
    /// Corners mended of walkable faces alone.
    WalkableAlone,
    /// A loop that goes on past its start where it can.
    PastTheStart,
    /// The first transition kept of two valid entries.
    FirstEntryKept,
    /// A transition that is lost but not listed.
    LossNotListed,
    /// Rule 15 not asked again of the changed corners: all half-edges are then taken for borders.
    RunsNotAskedAgain,
    /// A mended floor written before the list is found to be short.
    FormBeforeList,
    /// Numbers written with six digits after the point, however many were typed.
    SixDigits,
    /// Numbers written with one digit more after the point than was typed, where there may be one more.
    OneDigitMore,
    /// Numbers written without the zeros at their end, and without the point if nothing else stood there.
    ZerosDropped,
    /// Numbers that were typed without a point written with one.
    BarePoint,
    /// Minus zero that keeps its minus where digits stand after the point.
    MinusZeroTyped,
    /// A layout with hooks refused, as before M-100.
    NoHooks,
    /// Hooks of any number of words from 9 to 14.
    AnyWords,
    /// A hook in a room that the layout does not have.
    HookAnywhere,
    /// A hook's room that must be typed in lower case.
    HookRoomCase,
    /// A door's 34 that is given before the room's 39.
    DoorBeforeRoom,
    /// A hook's 35 that is given before the door's 37.
    NumberBeforeDoor,
    /// Doors that differ in letter case taken for different doors, and written as typed.
    DoorAsTyped,
    /// A door that may not have a room's name.
    DoorOrRoom,
    /// The five more numbers of a hook lost.
    FiveDropped,
    /// A rename that leaves the hooks as they are.
    HooksLeft,
    /// A rename that changes the first of a room's hooks only.
    OneHookRenamed,
    /// A rename that changes a door of the room's name too.
    DoorRenamed,
    /// A rename refused because a door has the name.
    RenameAsksDoors,
    /// A caption one byte longer where the room before it has a long name.
    CaptionAfterLong,
    /// A caption of one letter that gives way to the house text's.
    ShortCaption,
    /// A row whose marks stand in the order of the rooms' names.
    RowByName,
    /// A sight text's form that lists the rooms seen in the order of their names.
    SeenByName,
    /// A link check that does not count a room of a door's name.
    LinksAskDoors,
    /// A form that goes on in a new line behind a long name.
    LongNameBroken,
    /// A typed name that passes with a line break in it.
    NameWithBreak,
    /// A typed name that is refused only after the plain form has been written.
    NameAskedLate,
    /// A range of faces whose lower half is rounded up.
    LowerHalfUp,
    /// A tree whose right subtrees are numbered before the left ones.
    RightFirst,
    /// A box around the first corner of each face only.
    FirstCorner,
    /// A box that keeps negative zero.
    MinusZeroKept,
    /// A plane across the last of the longest sides.
    LastOnTie,
    /// Planes that count from 0.
    PlanesFromZero,
    /// A plane across the longest of the finite sides, where there are any.
    InfiniteLeftOut,
    /// A leaf that has a plane.
    LeafPlane,
    /// Nodes with 0 for their unknown number.
    UnknownZero,
    /// The root field of a floor that gets a tree left as it was.
    RootKept,
    /// 49 given after 15 to 19.
    NodesAskedLate,
    /// 49 given before 7 to 10.
    NodesAskedEarly,
    /// 11 to 14 asked of nodes that are there, before 49.
    TreeAsked,
}

/// All faults with the names by which they are asked for.
pub const FAULTS: [(&str, Fault); 75] = [
    ("minus-zero", Fault::MinusZero),
    ("children-from-one", Fault::ChildrenFromOne),
    ("depth-65", Fault::DepthSixtyFive),
    ("same-way", Fault::SameWay),
    ("nodes-not-paths", Fault::NodesNotPaths),
    ("undo-subtracts", Fault::UndoSubtracts),
    ("all-visited", Fault::AllVisited),
    ("border-left-out", Fault::BorderLeftOut),
    ("case-counts", Fault::CaseCounts),
    ("lengths-not-compared", Fault::LengthsNotCompared),
    ("first-byte-alike", Fault::FirstByteAlike),
    ("work-kept", Fault::WorkKept),
    ("old-work", Fault::OldWork),
    ("any-partner", Fault::AnyPartner),
    ("root-first", Fault::RootFirst),
    ("root-of-none", Fault::RootOfNone),
    ("record-only", Fault::RecordOnly),
    ("wide-paint", Fault::WidePaint),
    ("other-bench-taken-out", Fault::OtherBenchTakenOut),
    ("latest-of-all", Fault::LatestOfAll),
    ("blocked-not-asked", Fault::BlockedNotAsked),
    ("half-by-f", Fault::HalfByF),
    ("hole-left", Fault::HoleLeft),
    ("one-byte-off", Fault::OneByteOff),
    ("put-back-clears-f", Fault::PutBackClearsF),
    ("stopped-put-back", Fault::StoppedPutBack),
    ("bench-two", Fault::BenchTwo),
    ("highest-equal", Fault::HighestEqual),
    ("equal-by-bits", Fault::EqualByBits),
    ("lowest-used", Fault::LowestUsed),
    ("walkable-alone", Fault::WalkableAlone),
    ("past-the-start", Fault::PastTheStart),
    ("first-entry-kept", Fault::FirstEntryKept),
    ("loss-not-listed", Fault::LossNotListed),
    ("runs-not-asked-again", Fault::RunsNotAskedAgain),
    ("form-before-list", Fault::FormBeforeList),
    ("six-digits", Fault::SixDigits),
    ("one-digit-more", Fault::OneDigitMore),
    ("zeros-dropped", Fault::ZerosDropped),
    ("bare-point", Fault::BarePoint),
    ("minus-zero-typed", Fault::MinusZeroTyped),
    ("no-hooks", Fault::NoHooks),
    ("any-words", Fault::AnyWords),
    ("hook-anywhere", Fault::HookAnywhere),
    ("hook-room-case", Fault::HookRoomCase),
    ("door-before-room", Fault::DoorBeforeRoom),
    ("number-before-door", Fault::NumberBeforeDoor),
    ("door-as-typed", Fault::DoorAsTyped),
    ("door-or-room", Fault::DoorOrRoom),
    ("five-dropped", Fault::FiveDropped),
    ("hooks-left", Fault::HooksLeft),
    ("one-hook-renamed", Fault::OneHookRenamed),
    ("door-renamed", Fault::DoorRenamed),
    ("rename-asks-doors", Fault::RenameAsksDoors),
    ("caption-after-long", Fault::CaptionAfterLong),
    ("short-caption", Fault::ShortCaption),
    ("row-by-name", Fault::RowByName),
    ("seen-by-name", Fault::SeenByName),
    ("links-ask-doors", Fault::LinksAskDoors),
    ("long-name-broken", Fault::LongNameBroken),
    ("name-with-break", Fault::NameWithBreak),
    ("name-asked-late", Fault::NameAskedLate),
    ("lower-half-up", Fault::LowerHalfUp),
    ("right-first", Fault::RightFirst),
    ("first-corner", Fault::FirstCorner),
    ("minus-zero-kept", Fault::MinusZeroKept),
    ("last-on-tie", Fault::LastOnTie),
    ("planes-from-zero", Fault::PlanesFromZero),
    ("infinite-left-out", Fault::InfiniteLeftOut),
    ("leaf-plane", Fault::LeafPlane),
    ("unknown-zero", Fault::UnknownZero),
    ("root-kept", Fault::RootKept),
    ("nodes-asked-late", Fault::NodesAskedLate),
    ("nodes-asked-early", Fault::NodesAskedEarly),
    ("tree-asked", Fault::TreeAsked),
];

thread_local! {
    static PLANTED: Cell<Option<Fault>> = const { Cell::new(None) };
}

/// Plants a fault on this thread, or takes it away with `None`.
pub fn plant(fault: Option<Fault>) {
    PLANTED.with(|planted| planted.set(fault));
}

/// Whether this fault is planted on this thread.
pub fn planted(fault: Fault) -> bool {
    PLANTED.with(|planted| planted.get() == Some(fault))
}

/// The fault of that name.
pub fn named(name: &str) -> Option<Fault> {
    FAULTS
        .iter()
        .find(|(known, _)| *known == name)
        .map(|(_, fault)| *fault)
}
