//! The functions of the engine's archive, as `crates/mezhkura` has them.
//!
//! This is the one file that knows the archive: names, argument order, the layout of structs and the
//! meaning of numbers. A slice is two arguments, a pointer and a count. No function has a condition on
//! its arguments: every bit pattern of a struct has a meaning.

use crate::answer::{SheetEntry, MOST_BODY_LITERALS, MOST_NAMES, MOST_RULES};
use std::mem::size_of;

/// A set of literals: bit l % 64 of word l / 64 says whether l is a member.
#[repr(C)]
#[derive(Clone, Copy, PartialEq, Eq)]
pub struct LitSet {
    pub words: [u64; 4],
}

/// A loaded marking book.
#[repr(C)]
#[derive(Clone, Copy, PartialEq, Eq)]
pub struct Book {
    pub names: usize,
    pub rules: usize,
    pub text: [u8; 16 * MOST_NAMES],
    pub lengths: [u8; MOST_NAMES],
    pub heads: [u16; MOST_RULES],
    pub starts: [u16; MOST_RULES + 1],
    pub entries: [u16; MOST_BODY_LITERALS],
}

/// M, the literals that are true, N, those that aren't false, and how many rounds M takes: the least k with
/// I(k) = I(k + 1).
#[repr(C)]
#[derive(Clone, Copy, PartialEq, Eq)]
pub struct Model {
    pub truths: LitSet,
    pub nonfalse: LitSet,
    pub rounds: usize,
}

/// The place of one book: 0 in `loaded` says that none is there.
#[repr(C)]
#[derive(Clone, Copy, PartialEq, Eq)]
pub struct Shelf {
    pub loaded: u8,
    pub book: Book,
}

/// What a lesson shows: the model, and both literals of each name of the book whose verdicts are refused by
/// 24.
#[repr(C)]
#[derive(Clone, Copy, PartialEq, Eq)]
pub struct Marks {
    pub model: Model,
    pub contradictory: LitSet,
}

/// A lesson beside a book: the facts put in, and the marks of the book with these facts. A load and a change
/// of the facts work the marks out; they stand until the next one.
#[repr(C)]
#[derive(Clone, Copy, PartialEq, Eq)]
pub struct Lesson {
    pub facts: LitSet,
    pub marks: Marks,
}

/// A desk: one book on its shelf and one lesson beside it.
#[repr(C)]
#[derive(Clone, Copy, PartialEq, Eq)]
pub struct Desk {
    pub shelf: Shelf,
    pub lesson: Lesson,
}

/// The number of a reply to a call that wasn't turned down.
pub const ACCEPTED: u8 = 0;

/// The reply to sizing: what a file fills of each table. The line is that of a refused file, of which the
/// figures are 0.
#[repr(C)]
pub struct SizeReply {
    pub number: u8,
    pub line: usize,
    pub names: usize,
    pub rules: usize,
    pub body_literals: usize,
}

/// The reply to a load: the desk after it. The line is that of a refused file.
#[repr(C)]
pub struct LoadReply {
    pub number: u8,
    pub line: usize,
    pub desk: Desk,
}

/// The reply to putting in and taking out: the desk after it.
#[repr(C)]
pub struct ChangeReply {
    pub number: u8,
    pub desk: Desk,
}

/// The reply to a verdict: 0 is false, 1 is true, 2 is undefined.
#[repr(C)]
pub struct VerdictReply {
    pub number: u8,
    pub verdict: u8,
}

/// The reply to a search: 1 is yes, 0 is no.
#[repr(C)]
pub struct SearchReply {
    pub number: u8,
    pub holds: u8,
}

/// The reply to the model call: M, N, 1 where the lesson is contradictory, and the rounds that M takes. A
/// call that is turned down gives empty sets and 0 rounds.
#[repr(C)]
pub struct ModelReply {
    pub number: u8,
    pub contradictory: u8,
    pub truths: LitSet,
    pub nonfalse: LitSet,
    pub rounds: usize,
}

/// The reply to a listing, and to a preview of one.
#[repr(C)]
pub struct ListingReply {
    pub number: u8,
    pub length: usize,
}

/// The names of a book in working order. Place p has the name with number `name[p]`, of the group with number
/// `group[p]`; groups count from 0 in working order. Places from `names` on are 0.
#[repr(C)]
#[derive(Clone, Copy, Debug, PartialEq, Eq)]
pub struct Order {
    pub names: usize,
    pub groups: usize,
    pub name: [u16; MOST_NAMES],
    pub group: [u16; MOST_NAMES],
}

/// The reply to the call for the working order. A call that is turned down has an order of zeros.
#[repr(C)]
pub struct OrderReply {
    pub number: u8,
    pub order: Order,
}

/// The reply to the call for the model by groups: M, N, and 1 where the lesson is contradictory. A call
/// that is turned down gives empty sets.
#[repr(C)]
pub struct GroupsReply {
    pub number: u8,
    pub contradictory: u8,
    pub truths: LitSet,
    pub nonfalse: LitSet,
}

/// The reply to a check of a proof sheet. The index is that of the first entry that doesn't follow, and 0 with every
/// number but 27.
#[repr(C)]
pub struct CheckReply {
    pub number: u8,
    pub index: usize,
}

/// The reply to the call that makes a proof sheet: how many entries it wrote. A call that is turned down has 0.
#[repr(C)]
pub struct MakeReply {
    pub number: u8,
    pub count: usize,
}

// The sizes that tests/c/desk.c asserts of the structs of include/mezhkura.h.
const _: () = {
    assert!(size_of::<LitSet>() == 32);
    assert!(size_of::<Book>() == 8344);
    assert!(size_of::<Model>() == 72);
    assert!(size_of::<Shelf>() == 8352);
    assert!(size_of::<Marks>() == 104);
    assert!(size_of::<Lesson>() == 136);
    assert!(size_of::<Desk>() == 8488);
    assert!(size_of::<SizeReply>() == 40);
    assert!(size_of::<LoadReply>() == 8504);
    assert!(size_of::<ChangeReply>() == 8496);
    assert!(size_of::<VerdictReply>() == 2);
    assert!(size_of::<SearchReply>() == 2);
    assert!(size_of::<ModelReply>() == 80);
    assert!(size_of::<ListingReply>() == 16);
    assert!(size_of::<Order>() == 528);
    assert!(size_of::<OrderReply>() == 536);
    assert!(size_of::<GroupsReply>() == 72);
    assert!(size_of::<SheetEntry>() == 8);
    assert!(size_of::<CheckReply>() == 16);
    assert!(size_of::<MakeReply>() == 16);
};

/// The kinds of tree that `mezhkura_search` takes.
pub const TREE_T: u8 = 0;
pub const TREE_TU: u8 = 1;

extern "C" {
    pub fn mezhkura_size(file: *const u8, file_len: usize) -> SizeReply;
    pub fn mezhkura_fresh() -> Desk;
    pub fn mezhkura_load(desk: Desk, file: *const u8, file_len: usize) -> LoadReply;
    pub fn mezhkura_put_in(desk: Desk, literal: usize) -> ChangeReply;
    pub fn mezhkura_take_out(desk: Desk, literal: usize) -> ChangeReply;
    pub fn mezhkura_verdict(desk: Desk, literal: usize) -> VerdictReply;
    pub fn mezhkura_search(desk: Desk, literal: usize, default: u8, tree: u8) -> SearchReply;
    pub fn mezhkura_model(desk: Desk) -> ModelReply;
    pub fn mezhkura_listing(desk: Desk, buffer: *mut u8, buffer_len: usize) -> ListingReply;
    pub fn mezhkura_preview_put_in(
        desk: Desk,
        literal: usize,
        buffer: *mut u8,
        buffer_len: usize,
    ) -> ListingReply;
    pub fn mezhkura_preview_take_out(
        desk: Desk,
        literal: usize,
        buffer: *mut u8,
        buffer_len: usize,
    ) -> ListingReply;
    pub fn mezhkura_working_order(desk: Desk) -> OrderReply;
    pub fn mezhkura_model_by_groups(desk: Desk) -> GroupsReply;
    pub fn mezhkura_check_sheet(
        desk: Desk,
        literal: usize,
        truth: u8,
        entries: *const SheetEntry,
        length: usize,
    ) -> CheckReply;
    pub fn mezhkura_make_sheet(
        desk: Desk,
        literal: usize,
        truth: u8,
        entries: *mut SheetEntry,
        length: usize,
    ) -> MakeReply;
}
