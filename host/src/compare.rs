//! Runs a list of calls on the second implementation and on another desk, asks every verdict and every
//! question of the book that the list leaves, and says where the two first differ. Beside that it looks after
//! every call whether the model is that of the book and the facts, whatever came before.

use crate::answer::{
    BookSize, Change, Claim, Model, ModelByGroups, Question, Refused, SheetEntry, Tree, Verdict,
    WorkingOrder, MOST_LISTING,
};
use crate::gen::Call;
use crate::second::{self, Desk, Program};
use crate::sheets::told_of_a_made_sheet;
use crate::shrink::shortest_calls;
use std::fmt;
use std::ops::AddAssign;

/// The calls that both implementations answer, as the comparison makes them on the desk that it holds
/// against the second implementation's.
pub trait Calls {
    /// Sizing, which has no desk: whatever this one holds, the answer comes from the file alone.
    fn size(&self, file: &[u8]) -> Result<BookSize, Refused>;
    fn load(&mut self, file: &[u8]) -> Result<(), Refused>;
    fn put_in(&mut self, literal: usize) -> Result<(), Refused>;
    fn take_out(&mut self, literal: usize) -> Result<(), Refused>;
    fn verdict(&self, literal: usize) -> Result<Verdict, Refused>;
    fn search(&self, question: Question) -> Result<bool, Refused>;
    fn model(&self) -> Result<Model, Refused>;
    fn listing(&self, buffer: &mut [u8]) -> Result<usize, Refused>;
    /// The listing that would follow a change of the facts. It leaves the desk, and the comparison looks whether
    /// that is so: a desk is free to change here.
    fn preview(
        &mut self,
        change: Change,
        literal: usize,
        buffer: &mut [u8],
    ) -> Result<usize, Refused>;
    fn working_order(&self) -> Result<WorkingOrder, Refused>;
    fn model_by_groups(&self) -> Result<ModelByGroups, Refused>;
    fn check_sheet(&self, claim: Claim, sheet: &[SheetEntry]) -> Result<(), Refused>;
    fn make_sheet(&self, claim: Claim, run: &mut [SheetEntry]) -> Result<usize, Refused>;
    /// All that the desk holds, as bytes in whatever form: a refused call leaves every one of them, and so does
    /// one that changes neither book nor facts.
    fn state(&self) -> Vec<u8>;
}

/// The second implementation's walk is given up after so many visits, since plain trees can have
/// exponentially many nodes. That bounds its depth too, and so its stack.
pub const MOST_VISITS: u64 = 1_000;

/// What a buffer holds before it is lent: no byte of a listing.
pub(crate) const UNTOUCHED: u8 = 0xA5;

/// How much was asked of the books that lists of calls left.
#[derive(Clone, Copy, Debug, Default, PartialEq, Eq)]
pub struct Asked {
    pub books: usize,
    pub questions: usize,
    /// Questions that the second implementation's own walk answered too.
    pub walked: usize,
    /// Verdicts that were refused by 24.
    pub refused: usize,
    /// Verdicts that were given in a contradictory lesson.
    pub given_beside: usize,
    /// Contradictory lessons in which all verdicts were refused.
    pub contradictory: usize,
    /// Contradictory lessons in which some verdicts were refused and some were given.
    pub in_part: usize,
}

impl AddAssign for Asked {
    fn add_assign(&mut self, more: Asked) {
        self.books += more.books;
        self.questions += more.questions;
        self.walked += more.walked;
        self.refused += more.refused;
        self.given_beside += more.given_beside;
        self.contradictory += more.contradictory;
        self.in_part += more.in_part;
    }
}

/// What was asked after a list of calls on which the two desks agree, or a list whose last call they
/// answer differently. The other desk is a fresh one.
pub fn agree(calls: &[Call], other: &mut dyn Calls) -> Result<Asked, Vec<Call>> {
    let mut second = Desk::fresh();
    if let Some((place, _)) = first_difference(calls, &mut second, other) {
        return Err(calls[..=place].to_vec());
    }
    agree_at_the_end(&second, other).map_err(|call| [calls, &[call]].concat())
}

/// Whether both desks give the same answers to a list of calls, where nothing is asked behind it. Where
/// they don't, a short list of calls that shows it, ready to print.
pub fn answers_agree<D: Calls>(calls: &[Call], fresh: impl Fn() -> D) -> Result<(), String> {
    match first_difference(calls, &mut Desk::fresh(), &mut fresh()) {
        Some(_) => Err(explain(calls.to_vec(), fresh)),
        None => Ok(()),
    }
}

/// What a look at both desks says after the calls of a list, or a short list after which it finds a
/// difference, ready to print.
pub(crate) fn look_after<D: Calls, T>(
    calls: &[Call],
    fresh: &impl Fn() -> D,
    look: impl Fn(&Desk, &D) -> Result<T, String>,
) -> Result<T, String> {
    let looked = |calls: &[Call]| {
        let (mut second, mut other) = (Desk::fresh(), fresh());
        for call in calls {
            both_answers(call, &mut second, &mut other);
        }
        look(&second, &other)
    };
    let differs = |calls: &[Call]| {
        let last = calls.len().checked_sub(1)?;
        Some((last, looked(calls).err()?))
    };
    looked(calls).map_err(|_| explain_by(calls.to_vec(), differs))
}

/// The place of the first call of a list whose answers differ, with the answers, or nothing.
fn first_difference(
    calls: &[Call],
    second: &mut Desk,
    other: &mut dyn Calls,
) -> Option<(usize, String)> {
    calls.iter().enumerate().find_map(|(place, call)| {
        let (ours, theirs) = both(call, second, other);
        (ours != theirs).then(|| {
            (
                place,
                format!("second says {ours}, the other says {theirs}"),
            )
        })
    })
}

/// A short list of calls that shows a difference, with its difference, ready to print. The list given
/// has a call that is answered differently, so that trying a shorter list takes no other questions.
pub fn explain<D: Calls>(calls: Vec<Call>, fresh: impl Fn() -> D) -> String {
    explain_by(calls, |calls| {
        first_difference(calls, &mut Desk::fresh(), &mut fresh())
    })
}

/// The same, where `differs` finds the place of a call and says what is different there.
fn explain_by(calls: Vec<Call>, differs: impl Fn(&[Call]) -> Option<(usize, String)>) -> String {
    let short = shortest_calls(calls, &mut |calls| differs(calls).is_some());
    let (place, difference) = differs(&short).expect("the short list shows it too");
    let calls: String = short.iter().map(|call| format!("  {call:?}\n")).collect();
    let call = &short[place];
    format!("call {place} ({call:?}): {difference}\nin these calls on a fresh desk:\n{calls}")
}

/// After how many calls the model was looked at, and how many of these calls were refused.
#[derive(Clone, Copy, Debug, Default, PartialEq, Eq)]
pub struct Stood {
    pub calls: usize,
    pub refused: usize,
}

impl AddAssign for Stood {
    fn add_assign(&mut self, more: Stood) {
        self.calls += more.calls;
        self.refused += more.refused;
    }
}

/// Looks after every call of a list, a refused one too, whether the model comes from the book and the
/// facts alone: it is that of the second implementation, and the desk is, bit by bit, a fresh one that
/// loads the same book and puts in the same facts in another order. Where that isn't so, a short list of
/// calls that shows it, ready to print.
pub fn models_stand<D: Calls>(calls: &[Call], fresh: impl Fn() -> D) -> Result<Stood, String> {
    let looked = |calls: &[Call]| first_model_difference(calls, &fresh);
    looked(calls).map_err(|_| explain_by(calls.to_vec(), |calls| looked(calls).err()))
}

/// The same, with the place of the first call after which it isn't so, and what is different there.
fn first_model_difference<D: Calls>(
    calls: &[Call],
    fresh: &impl Fn() -> D,
) -> Result<Stood, (usize, String)> {
    let (mut second, mut other) = (Desk::fresh(), fresh());
    let mut stood = Stood::default();
    for (place, call) in calls.iter().enumerate() {
        let (_, theirs) = both_answers(call, &mut second, &mut other);
        if let Some(difference) = model_difference(&second, &other, fresh) {
            return Err((place, difference));
        }
        stood.calls += 1;
        stood.refused += usize::from(theirs.refused);
    }
    Ok(stood)
}

/// What is different in the model of a desk that should hold the same book and facts as the second one.
fn model_difference<D: Calls>(second: &Desk, other: &D, fresh: &impl Fn() -> D) -> Option<String> {
    let (ours, theirs) = (second.model(), other.model());
    if ours != theirs {
        return Some(format!(
            "then second's model is {ours:?}, the other's is {theirs:?}"
        ));
    }
    // Where there are two facts or more, one of the two orders isn't that of the list.
    let upwards: Vec<usize> = second.facts().iter().copied().collect();
    let downwards = upwards.iter().rev().copied().collect();
    [upwards, downwards].into_iter().find_map(|facts| {
        let again = desk_with(second, &facts, fresh);
        let model = again.model();
        if model != theirs {
            return Some(format!(
                "then the model is {theirs:?}, and with facts put in as {facts:?} it is {model:?}"
            ));
        }
        (again.state() != other.state())
            .then(|| format!("then the desk isn't the one with facts put in as {facts:?}"))
    })
}

/// A fresh desk that loads the second one's book and puts in these facts in this order.
fn desk_with<D: Calls>(second: &Desk, facts: &[usize], fresh: &impl Fn() -> D) -> D {
    let mut desk = fresh();
    // A call that is wrongly refused here shows in the desk that it leaves.
    if let Some(book) = second.book() {
        let _ = desk.load(book.to_file().as_bytes());
    }
    for &fact in facts {
        let _ = desk.put_in(fact);
    }
    desk
}

/// What a desk answers to a call, as text that holds every part of the answer.
#[derive(PartialEq, Eq)]
struct Told {
    text: String,
    refused: bool,
}

impl fmt::Display for Told {
    fn fmt(&self, f: &mut fmt::Formatter<'_>) -> fmt::Result {
        f.write_str(&self.text)
    }
}

fn told<T: fmt::Debug>(answer: Result<T, Refused>) -> Told {
    Told {
        text: format!("{answer:?}"),
        refused: answer.is_err(),
    }
}

/// What both desks answer to a call. A desk that changes by a refused call, or by one that changes neither
/// book nor facts, tells that too.
fn both(call: &Call, second: &mut Desk, other: &mut dyn Calls) -> (Told, Told) {
    let before = other.state();
    let (ours, mut theirs) = both_answers(call, second, other);
    if (theirs.refused || !call.is_a_change()) && other.state() != before {
        theirs.text += ", and the desk changed";
    }
    (ours, theirs)
}

fn both_answers(call: &Call, second: &mut Desk, other: &mut dyn Calls) -> (Told, Told) {
    match call {
        Call::Load(file) => both_loads(file, second, other),
        Call::PutIn(l) => (told(second.put_in(*l)), told(other.put_in(*l))),
        Call::TakeOut(l) => (told(second.take_out(*l)), told(other.take_out(*l))),
        Call::Verdict(l) => (told(second.verdict(*l)), told(other.verdict(*l))),
        Call::Search(q) => (second_search(*q, second), told(other.search(*q))),
        Call::Model => (told(second.model()), told(other.model())),
        Call::Listing { margin } => both_listings(*margin, second, other),
        Call::Preview {
            change,
            literal,
            margin,
        } => both_previews(*change, *literal, *margin, second, other),
        Call::WorkingOrder => (told(second.working_order()), told(other.working_order())),
        Call::ModelByGroups => (second_by_groups(second), told(other.model_by_groups())),
        Call::CheckSheet { claim, sheet } => (
            told(second.check_sheet(*claim, sheet)),
            told(other.check_sheet(*claim, sheet)),
        ),
        Call::MakeSheet { claim, length } => both_sheets(*claim, *length, second, other),
    }
}

/// Both loads. Every file that is loaded is sized as well.
fn both_loads(file: &[u8], second: &mut Desk, other: &mut dyn Calls) -> (Told, Told) {
    let (our_size, their_size) = (second::size(file), other.size(file));
    let (mut ours, mut theirs) = (told(second.load(file)), told(other.load(file)));
    ours.text += &format!(", sized {our_size:?}");
    theirs.text += &format!(", sized {their_size:?}");
    (ours, theirs)
}

/// What the second implementation says to a question: what M and N say, and its walk beside them where
/// that ends and says otherwise.
fn second_search(question: Question, second: &Desk) -> Told {
    let by_model = second
        .model()
        .map(|model| answer_by_model(question, &model));
    match second.search(question, MOST_VISITS) {
        Err(refused) => told::<bool>(Err(refused)),
        Ok(Some(walk)) if by_model != Ok(walk) => Told {
            text: format!("{by_model:?} by M and N, {walk} by its walk"),
            refused: false,
        },
        Ok(_) => told(by_model),
    }
}

/// What the second implementation says of M and N: what it finds group by group, and what it finds in one
/// piece where that is another thing.
fn second_by_groups(second: &Desk) -> Told {
    let whole = second.model().map(ModelByGroups::from);
    let by_groups = second.model_by_groups();
    if by_groups == whole {
        return told(whole);
    }
    Told {
        text: format!("{by_groups:?} by groups, {whole:?} in one piece"),
        refused: false,
    }
}

fn both_listings(margin: isize, second: &Desk, other: &dyn Calls) -> (Told, Told) {
    let due = second.listing(&mut [0; MOST_LISTING]);
    let length = lent(due, margin);
    (
        told_with_buffer(length, |buffer| second.listing(buffer)),
        told_with_buffer(length, |buffer| other.listing(buffer)),
    )
}

fn both_previews(
    change: Change,
    literal: usize,
    margin: isize,
    second: &Desk,
    other: &mut dyn Calls,
) -> (Told, Told) {
    let due = second.preview(change, literal, &mut [0; MOST_LISTING]);
    let length = lent(due, margin);
    (
        told_with_buffer(length, |buffer| second.preview(change, literal, buffer)),
        told_with_buffer(length, |buffer| other.preview(change, literal, buffer)),
    )
}

/// Which sheet is made is each maker's choice, so what is told of one is what all choices have in common.
fn both_sheets(claim: Claim, length: usize, second: &Desk, other: &dyn Calls) -> (Told, Told) {
    let of_a_sheet = |make: &dyn Fn(&mut [SheetEntry]) -> Result<usize, Refused>| {
        let (text, refused) = told_of_a_made_sheet(second, claim, length, make);
        Told { text, refused }
    };
    (
        of_a_sheet(&|run| second.make_sheet(claim, run)),
        of_a_sheet(&|run| other.make_sheet(claim, run)),
    )
}

/// The length of a buffer by the length of the listing that is due, and that of some buffer where none is.
fn lent(due: Result<usize, Refused>, margin: isize) -> usize {
    due.unwrap_or(40).saturating_add_signed(margin)
}

/// What a desk answers, with every byte of a buffer that is lent to it.
fn told_with_buffer(
    length: usize,
    write: impl FnOnce(&mut [u8]) -> Result<usize, Refused>,
) -> Told {
    let mut buffer = vec![UNTOUCHED; length];
    let mut answer = told(write(&mut buffer));
    answer.text += &format!(" \"{}\"", buffer.escape_ascii());
    answer
}

/// What was asked after a list (model, listing, working order, model by groups, two previews, two proof sheets,
/// every literal's verdict, and its four searches against M and N), or a call that is answered differently.
fn agree_at_the_end(second: &Desk, other: &mut dyn Calls) -> Result<Asked, Call> {
    let mut copy = second.clone();
    let calls = [
        Call::Model,
        Call::Listing { margin: 3 },
        Call::WorkingOrder,
        Call::ModelByGroups,
    ];
    let calls = calls.into_iter().chain(previews_at_the_end(second));
    for call in calls.chain(sheets_at_the_end(second)) {
        let (ours, theirs) = both(&call, &mut copy, other);
        if ours != theirs {
            return Err(call);
        }
    }
    let (Some(book), Ok(model)) = (second.book(), second.model()) else {
        return Ok(Asked::default());
    };
    let program = Program::new(book, second.facts());
    let mut asked = verdicts_at_the_end(&program, &model, other)?;
    for question in (0..book.literals()).flat_map(questions) {
        let expected = answer_by_model(question, &model);
        let walk = second::search(&program, question, MOST_VISITS);
        if walk.is_some_and(|answer| answer != expected) || other.search(question) != Ok(expected) {
            return Err(Call::Search(question));
        }
        asked.questions += 1;
        asked.walked += usize::from(walk.is_some());
    }
    Ok(asked)
}

/// Previews that are accepted: the last literal that isn't put in is put in, and the last fact is taken out.
fn previews_at_the_end(second: &Desk) -> impl Iterator<Item = Call> {
    let facts = second.facts();
    let literals = second.book().map_or(0, |book| book.literals());
    let out = (0..literals).rfind(|literal| !facts.contains(literal));
    let put_in = out.map(|literal| (Change::PutIn, literal));
    let take_out = facts.last().map(|&fact| (Change::TakeOut, fact));
    let both = [put_in, take_out].into_iter().flatten();
    both.map(|(change, literal)| Call::Preview {
        change,
        literal,
        margin: 3,
    })
}

/// A proof sheet for each claim about the last literal.
fn sheets_at_the_end(second: &Desk) -> impl Iterator<Item = Call> {
    let literals = second.book().map_or(0, |book| book.literals());
    let last = literals.checked_sub(1).into_iter();
    last.flat_map(Claim::both)
        .map(move |claim| Call::MakeSheet {
            claim,
            length: 2 * literals + 3,
        })
}

/// Every literal's verdict after a list, or one that is answered differently.
fn verdicts_at_the_end(program: &Program, model: &Model, other: &dyn Calls) -> Result<Asked, Call> {
    let halves = program.halves();
    let (mut refused, mut given) = (0, 0);
    for literal in 0..program.literals {
        let due = second::verdict(program, &halves, literal);
        if other.verdict(literal) != due {
            return Err(Call::Verdict(literal));
        }
        match due {
            Ok(_) => given += 1,
            Err(_) => refused += 1,
        }
    }
    let beside = model.contradictory && given > 0;
    Ok(Asked {
        books: 1,
        refused,
        given_beside: if beside { given } else { 0 },
        contradictory: usize::from(model.contradictory && !beside),
        in_part: usize::from(beside),
        ..Asked::default()
    })
}

/// The four questions about a literal.
pub fn questions(literal: usize) -> impl Iterator<Item = Question> {
    let kinds = [
        (false, Tree::T),
        (false, Tree::TU),
        (true, Tree::T),
        (true, Tree::TU),
    ];
    kinds.into_iter().map(move |(default, tree)| Question {
        literal,
        default,
        tree,
    })
}

/// What M and N say to a question (document 01, demand 3).
pub fn answer_by_model(question: Question, model: &Model) -> bool {
    let truly = model.truths.contains(&question.literal);
    let possibly = model.nonfalse.contains(&question.literal);
    match (question.default, question.tree) {
        (false, Tree::T) => truly,
        (false, Tree::TU) => possibly,
        (true, Tree::T) => !possibly,
        (true, Tree::TU) => !truly,
    }
}
