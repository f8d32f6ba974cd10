//! Holds the previews of a desk against what document 02, A.8 says of them: the change of the facts made on a
//! copy, and the listing of that copy.

use crate::answer::{Change, Refused, MOST_LISTING};
use crate::compare::{look_after, Calls, UNTOUCHED};
use crate::gen::Call;
use std::collections::{BTreeMap, BTreeSet};
use std::ops::AddAssign;

/// How many previews were looked at, by what was due of them.
#[derive(Clone, Debug, Default, PartialEq, Eq)]
pub struct Previewed {
    /// By the number that refuses them, which is 0 for those that are accepted.
    pub numbers: BTreeMap<u8, usize>,
    /// Those that show a contradictory lesson, where the lesson isn't contradictory.
    pub clashing: usize,
    /// Those that show a lesson that isn't contradictory, where the lesson is.
    pub mended: usize,
}

impl AddAssign for Previewed {
    fn add_assign(&mut self, more: Previewed) {
        for (number, count) in more.numbers {
            *self.numbers.entry(number).or_default() += count;
        }
        self.clashing += more.clashing;
        self.mended += more.mended;
    }
}

impl Previewed {
    fn count(&mut self, due: Result<usize, Refused>, listed: &[u8], contradictory: bool) {
        let number = due.map_or_else(Refused::number, |_| 0);
        *self.numbers.entry(number).or_default() += 1;
        let clashes = listed.starts_with(b"contradiction,");
        self.clashing += usize::from(due.is_ok() && clashes && !contradictory);
        self.mended += usize::from(due.is_ok() && !clashes && contradictory);
    }
}

/// Makes the calls of a list on a fresh desk, and holds previews of both changes against the change and the
/// listing on a copy: of literals of the book that the list leaves, its facts among them, and of literals past
/// it. Where one is another thing, a short list of calls that shows it, ready to print.
pub fn previews_are_of_a_copy<D: Calls + Clone>(
    calls: &[Call],
    fresh: impl Fn() -> D,
) -> Result<Previewed, String> {
    look_after(calls, &fresh, |second, desk| {
        let literals = second.book().map_or(0, |book| book.literals());
        // All literals of a small book, and few of a large one, where each preview works out a large model.
        let some = (0..literals).step_by(1 + literals / 16);
        let mut asked: BTreeSet<usize> = some.chain([literals, usize::MAX]).collect();
        asked.extend(second.facts());
        let mut previewed = Previewed::default();
        for (literal, change) in asked.into_iter().flat_map(|l| Change::BOTH.map(|c| (l, c))) {
            previewed +=
                previews_of(desk, change, literal).map_err(|text| format!("then {text}"))?;
        }
        Ok(previewed)
    })
}

/// Looks at the previews of a change on a desk with buffers that are longer than the listing that would follow,
/// as long, one byte shorter and of no bytes: the answer and every byte are those of the change and the listing
/// on a copy, and the desk stays. Where none would follow, the listing as it is stands for it. What was due of
/// them, or what is different.
pub fn previews_of<D: Calls + Clone>(
    desk: &D,
    change: Change,
    literal: usize,
) -> Result<Previewed, String> {
    let contradictory = desk.model().is_ok_and(|model| model.contradictory);
    let mut whole = [0; MOST_LISTING];
    let due = listed_on_a_copy(desk, change, literal, &mut whole);
    let length = due.or_else(|_| desk.listing(&mut whole)).unwrap_or(40);
    let mut previewed = Previewed::default();
    for lent in [length + 9, length, length - 1, 0] {
        let (mut due_bytes, mut bytes) = (vec![UNTOUCHED; lent], vec![UNTOUCHED; lent]);
        let due = listed_on_a_copy(desk, change, literal, &mut due_bytes);
        let mut previewing = desk.clone();
        let answer = previewing.preview(change, literal, &mut bytes);
        if answer != due || bytes != due_bytes {
            return Err(format!(
                "the preview of {change} {literal} into {lent} bytes is {answer:?} \"{}\", \
                 and on a copy it is {due:?} \"{}\"",
                bytes.escape_ascii(),
                due_bytes.escape_ascii()
            ));
        }
        if previewing.state() != desk.state() {
            return Err(format!(
                "the preview of {change} {literal} into {lent} bytes changes the desk"
            ));
        }
        previewed.count(due, &due_bytes, contradictory);
    }
    Ok(previewed)
}

/// What is due of a preview.
fn listed_on_a_copy<D: Calls + Clone>(
    desk: &D,
    change: Change,
    literal: usize,
    buffer: &mut [u8],
) -> Result<usize, Refused> {
    let mut copy = desk.clone();
    match change {
        Change::PutIn => copy.put_in(literal),
        Change::TakeOut => copy.take_out(literal),
    }?;
    copy.listing(buffer)
}
