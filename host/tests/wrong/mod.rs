//! Desks that are wrong in one thing, for the comparison to find.

mod sheets;

use super::{first_and_rest, program_of, with_each_line};
use mezhkura::answer::{
    BookSize, Change, Claim, Fault, Model, ModelByGroups, Question, Refused, SheetEntry, Verdict,
    WorkingOrder, MOST_LISTING,
};
use mezhkura::compare::{answer_by_model, Calls, MOST_VISITS};
use mezhkura::gen;
use mezhkura::second::{model_by_groups, reach, read, size, value, word, working_order};
use mezhkura::second::{Book, Desk, Program, Rule};
pub use sheets::{Misjudged, Mismade};

/// A desk that is the second implementation, but for one thing that it does wrong.
#[derive(Clone)]
pub struct Wrong {
    desk: Desk,
    how: How,
    /// The literal put in last since a book was loaded, whether or not it was taken out again.
    last: Option<usize>,
}

impl Wrong {
    pub fn fresh(how: How) -> Wrong {
        Wrong {
            desk: Desk::fresh(),
            how,
            last: None,
        }
    }

    /// What the desk reads in place of a file, where it reads it wrong.
    fn misread(&self, file: &[u8]) -> Result<Vec<u8>, Refused> {
        match self.how {
            How::DeclaresEachSpelling => Ok(with_each_spelling_declared(file)),
            How::UsesTheDeclaredSpellingAlone => match first_other_use(file) {
                Some(line) => Err(Refused::File {
                    fault: Fault::Undeclared,
                    line,
                }),
                None => Ok(file.to_vec()),
            },
            How::FirstWordsInCapitals => Ok(with_each_line(file, |line| {
                first_and_rest(line).0.make_ascii_lowercase();
            })),
            How::ListsTheLastSpelling if read(file).is_ok() => Ok(declared_as_last_used(file)),
            _ => Ok(file.to_vec()),
        }
    }

    /// A desk with the same book and no facts.
    fn without_facts(&self) -> Result<Desk, Refused> {
        let mut desk = Desk::fresh();
        if let Some(book) = self.desk.book() {
            desk.load(book.to_file().as_bytes())?;
        }
        Ok(desk)
    }

    /// The lines of the right listing, each with its fields.
    fn lines(&self) -> Result<Vec<Vec<String>>, Refused> {
        let mut buffer = vec![0; MOST_LISTING];
        let length = self.desk.listing(&mut buffer)?;
        let text = String::from_utf8_lossy(&buffer[..length]);
        let fields = |line: &str| line.split(',').map(str::to_string).collect();
        Ok(text.lines().map(fields).collect())
    }

    /// The listing with a wrong header or with wrong lines, where the desk lists so.
    fn mislisted(&self) -> Result<Option<String>, Refused> {
        let mut lines = self.lines()?;
        let contradictory = lines[0][0] == "contradiction";
        match self.how {
            How::CountsTheConfirmingRound
            | How::RoundsOfTheBookAlone
            | How::ListsRoundsBeforeFacts => self.misheaded(&mut lines[0])?,
            How::Lists(astray) => astray.reword(&self.desk, &mut lines[1..]),
            _ if contradictory => self.misworded(&mut lines),
            _ => return Ok(None),
        }
        let line = |fields: &Vec<String>| fields.join(",") + "\n";
        Ok(Some(lines.iter().map(line).collect()))
    }

    /// A header, of which fields 3 and 4 are FACTS and ROUNDS, with wrong ones.
    fn misheaded(&self, header: &mut [String]) -> Result<(), Refused> {
        match self.how {
            How::ListsRoundsBeforeFacts => header.swap(3, 4),
            _ => header[4] = self.model()?.rounds.to_string(),
        }
        Ok(())
    }

    /// Makes the listing of a contradictory lesson a wrong one.
    fn misworded(&self, lines: &mut Vec<Vec<String>>) {
        let is_refused = |line: &Vec<String>| line.last().is_some_and(|f| f == "contradictory");
        let halves = program_of(&self.desk).halves();
        match self.how {
            How::ListsTheWordInOneField | How::ListsTheWordInTheOtherField => {
                let sign = usize::from(self.how == How::ListsTheWordInOneField);
                for (name, line) in lines[1..].iter_mut().enumerate() {
                    line[2 + sign] = value(&halves, 2 * name + sign).word().to_string();
                }
            }
            How::LeavesOutContradictoryLines => lines.retain(|line| !is_refused(line)),
            How::LeavesOutTheLastLine => lines.truncate(lines.len() - 1),
            How::ListsTheHeaderAlone => lines.truncate(1),
            How::HeadsByTheFirstContradictoryLine => {
                let first = lines.iter().find(|line| is_refused(line));
                lines[0][5] = first.expect("a clash has a line")[1].clone();
            }
            How::HeadsByTheHighestClash => {
                let highest = (0..lines.len() - 1).rfind(|&name| halves.has_both(name));
                lines[0][5] = lines[1 + highest.expect("a clash")][1].clone();
            }
            How::NamesNoClash => lines[0].truncate(5),
            _ => {}
        }
    }

    /// The groups of the book in the wrong order, or other groups.
    fn misordered(&self, groups: Vec<Vec<usize>>, book: &Book) -> Vec<Vec<usize>> {
        let names = book.names.len();
        let ordered = |rules: &[Rule]| working_order(names, &reach(names, rules));
        let of_rules = |change: &dyn Fn(&mut Vec<Rule>)| {
            let mut rules = book.rules.clone();
            change(&mut rules);
            ordered(&rules)
        };
        match self.how {
            How::NoNameReachesItself => in_a_circle(groups, &book.rules),
            How::ReachesByPlainLiterals => of_rules(&|rules| {
                for rule in rules {
                    rule.body.retain(|entry| !entry.default);
                }
            }),
            How::ReachesByRulesForTheName => {
                of_rules(&|rules| rules.retain(|rule| rule.head % 2 == 0))
            }
            How::FactsEndTheReach => {
                let facts = self.desk.facts();
                of_rules(&|rules| rules.retain(|rule| !facts.contains(&rule.head)))
            }
            How::TakesTheHighestGroup => {
                downwards(names, &ordered(&renumbered(names, &book.rules)))
            }
            How::ListsGroupsByNumber => {
                let mut groups = groups;
                groups.sort();
                groups
            }
            _ => groups,
        }
    }
}

/// The groups whose names reach themselves by a rule.
fn in_a_circle(mut groups: Vec<Vec<usize>>, rules: &[Rule]) -> Vec<Vec<usize>> {
    let own = |rule: &Rule, name| {
        rule.head / 2 == name && rule.body.iter().any(|entry| entry.literal / 2 == name)
    };
    groups.retain(|group| group.len() > 1 || rules.iter().any(|rule| own(rule, group[0])));
    groups
}

/// Rules with the names counted from the last one down.
fn renumbered(names: usize, rules: &[Rule]) -> Vec<Rule> {
    let other = |literal: usize| 2 * (names - 1 - literal / 2) + literal % 2;
    let mut rules = rules.to_vec();
    for rule in &mut rules {
        rule.head = other(rule.head);
        for entry in &mut rule.body {
            entry.literal = other(entry.literal);
        }
    }
    rules
}

/// Groups of names that are counted from the last one down, counted from the first one up.
fn downwards(names: usize, groups: &[Vec<usize>]) -> Vec<Vec<usize>> {
    let upwards = |group: &Vec<usize>| group.iter().rev().map(|name| names - 1 - name).collect();
    groups.iter().map(upwards).collect()
}

/// M and N worked out group by group, where a step knows of the groups before only what is true: its
/// program is its own rules, and a fact for each literal of their M.
fn by_truths_alone(desk: &Desk) -> Result<ModelByGroups, Refused> {
    let groups = desk.working_order()?.groups;
    let whole = program_of(desk);
    let mut model = ModelByGroups::from(Desk::model(desk)?);
    model.truths.clear();
    model.nonfalse.clear();
    for group in groups {
        let own = |literal: &usize| group.contains(&(literal / 2));
        let truths = model.truths.iter().map(|&head| Rule {
            head,
            body: Vec::new(),
        });
        let rules = whole.rules.iter().filter(|rule| own(&rule.head)).cloned();
        let step = model_by_groups(&Program {
            literals: whole.literals,
            rules: truths.chain(rules).collect(),
        });
        model.truths.extend(step.truths.into_iter().filter(own));
        model.nonfalse.extend(step.nonfalse.into_iter().filter(own));
    }
    Ok(model)
}

/// A file in which each line that 6 refuses, though no line before it is the same, declares a name that
/// stands nowhere else.
fn with_each_spelling_declared(file: &[u8]) -> Vec<u8> {
    let mut lines = gen::lines_of(file);
    loop {
        let place = match read(&lines.concat()) {
            Err(refused) if refused.number() == 6 => refused.line() - 1,
            _ => return lines.concat(),
        };
        if lines[..place].contains(&lines[place]) {
            return lines.concat();
        }
        lines[place] = format!("name,other_{place}\n").into_bytes();
    }
}

/// The names in a line, as they are spelt there.
fn names_in(line: &[u8]) -> Vec<String> {
    let text = String::from_utf8_lossy(line);
    let fields = text.trim_end().split(',').skip(1);
    fields
        .map(|field| field.trim_start_matches(['~', '-']).to_string())
        .collect()
}

/// The first line of a file that loads whose rule spells a name otherwise than its declaration.
fn first_other_use(file: &[u8]) -> Option<usize> {
    let declared = read(file).ok()?.names;
    let other = |line: &Vec<u8>| names_in(line).iter().any(|name| !declared.contains(name));
    let place = gen::lines_of(file).iter().position(other)?;
    Some(place + 1)
}

/// A file that declares each name in the spelling of the last line that has it.
fn declared_as_last_used(file: &[u8]) -> Vec<u8> {
    let lines = gen::lines_of(file);
    let names: Vec<String> = lines.iter().flat_map(|line| names_in(line)).collect();
    let respelt = |line: &Vec<u8>| match &names_in(line)[..] {
        [name] if line.starts_with(b"name,") => {
            let last = names.iter().rfind(|n| n.eq_ignore_ascii_case(name));
            format!("name,{}\n", last.unwrap_or(name)).into_bytes()
        }
        _ => line.clone(),
    };
    lines.iter().flat_map(respelt).collect()
}

/// Which names of a contradictory lesson a wrong desk refuses by 24.
#[derive(Clone, Copy, Debug, PartialEq)]
pub enum Astray {
    /// None: a verdict is read from M and N whatever clashes.
    NoName,
    /// All of them.
    EveryName,
    /// Those with both literals in M, and no other that reaches them.
    ClashesAlone,
    /// Those that a name with both literals in M reaches.
    ReachedByAClash,
    /// Those that reach one by literals without `~`.
    ByPlainLiterals,
    /// Those that reach one by rules for names, and not by rules for their explicit negations.
    ByRulesForTheName,
    /// Those that reach one in a single step.
    ByOneStep,
    /// Those of the book without the facts put in.
    OfTheBookAlone,
}

impl Astray {
    pub const ALL: [Astray; 8] = [
        Astray::NoName,
        Astray::EveryName,
        Astray::ClashesAlone,
        Astray::ReachedByAClash,
        Astray::ByPlainLiterals,
        Astray::ByRulesForTheName,
        Astray::ByOneStep,
        Astray::OfTheBookAlone,
    ];

    /// Whether a name of a desk's book is refused.
    fn refuses(self, desk: &Desk, name: usize) -> bool {
        let mut program = program_of(desk);
        let names = program.literals / 2;
        if self == Astray::OfTheBookAlone {
            program
                .rules
                .truncate(desk.book().map_or(0, |book| book.rules.len()));
        }
        let halves = program.halves();
        let rules = &mut program.rules;
        match self {
            Astray::ByPlainLiterals => rules
                .iter_mut()
                .for_each(|rule| rule.body.retain(|entry| !entry.default)),
            Astray::ByRulesForTheName => rules.retain(|rule| rule.head % 2 == 0),
            Astray::ByOneStep => rules.retain(|rule| rule.head / 2 == name),
            _ => {}
        }
        let reached = reach(names, rules);
        (0..names)
            .filter(|&clash| halves.has_both(clash))
            .any(|clash| match self {
                Astray::NoName => false,
                Astray::EveryName => true,
                Astray::ClashesAlone => clash == name,
                Astray::ReachedByAClash => reached[clash][name],
                _ => reached[name][clash],
            })
    }

    /// The verdict of a literal of a desk's book.
    fn verdict(self, desk: &Desk, literal: usize) -> Result<Verdict, Refused> {
        if self.refuses(desk, literal / 2) {
            return Err(Refused::Contradictory);
        }
        Ok(value(&program_of(desk).halves(), literal))
    }

    /// Gives the lines of a desk's names the words of these verdicts.
    fn reword(self, desk: &Desk, lines: &mut [Vec<String>]) {
        for (name, line) in lines.iter_mut().enumerate() {
            for sign in [0, 1] {
                line[2 + sign] = word(self.verdict(desk, 2 * name + sign)).to_string();
            }
        }
    }
}

/// What is wrong in a preview.
#[derive(Clone, Copy, Debug, PartialEq)]
pub enum Misshown {
    /// The lesson keeps the change.
    KeepsTheChange,
    /// The lesson is listed as it is.
    ListsTheLesson,
    /// The other change is shown.
    ShowsTheOtherChange,
    /// 25 is given before 22 and 23.
    LooksAtTheBufferFirst,
    /// Where 22 or 23 is due and the buffer is long, the lesson is listed as it is.
    ListsWhereRefused,
    /// The bytes behind the listing are cleared.
    ClearsTheRest,
    /// What fits is written into a short buffer.
    WritesWhatFits,
}

impl Misshown {
    pub const ALL: [Misshown; 7] = [
        Misshown::KeepsTheChange,
        Misshown::ListsTheLesson,
        Misshown::ShowsTheOtherChange,
        Misshown::LooksAtTheBufferFirst,
        Misshown::ListsWhereRefused,
        Misshown::ClearsTheRest,
        Misshown::WritesWhatFits,
    ];

    /// The preview of a change on a desk.
    fn preview(
        self,
        desk: &mut Desk,
        change: Change,
        literal: usize,
        buffer: &mut [u8],
    ) -> Result<usize, Refused> {
        let mut whole = vec![0; MOST_LISTING];
        let due = desk.preview(change, literal, &mut whole);
        let is_refused = matches!(due, Err(Refused::PutInNow | Refused::NotPutIn));
        match self {
            Misshown::KeepsTheChange => {
                let length = desk.preview(change, literal, buffer)?;
                desk.change(change, literal)?;
                return Ok(length);
            }
            Misshown::ListsTheLesson if due.is_ok() => return desk.listing(buffer),
            Misshown::ListsWhereRefused if is_refused => return desk.listing(buffer).or(due),
            Misshown::LooksAtTheBufferFirst if is_refused => {
                desk.listing(&mut vec![0; buffer.len()])?;
            }
            Misshown::ShowsTheOtherChange => {
                let other = match change {
                    Change::PutIn => Change::TakeOut,
                    Change::TakeOut => Change::PutIn,
                };
                return desk.preview(other, literal, buffer);
            }
            Misshown::ClearsTheRest => {
                let length = desk.preview(change, literal, buffer)?;
                buffer[length..].fill(0);
            }
            Misshown::WritesWhatFits => {
                let fits = due?.min(buffer.len());
                buffer[..fits].copy_from_slice(&whole[..fits]);
            }
            _ => {}
        }
        desk.preview(change, literal, buffer)
    }
}

#[derive(Clone, Copy, Debug, PartialEq)]
pub enum How {
    NotAtAll,
    DeclaresEachSpelling,
    UsesTheDeclaredSpellingAlone,
    FirstWordsInCapitals,
    ListsSmallLetters,
    ListsTheLastSpelling,
    HeadsAreSized,
    SizesRefusedFiles,
    PutInStoresNothing,
    SearchSaysNo,
    LongSearchSaysNo,
    ShortBufferOfALongOne,
    WritesPastTheListing,
    ModelOfTheBookAlone,
    Refuses(Astray),
    Lists(Astray),
    ListsTheWordInOneField,
    ListsTheWordInTheOtherField,
    LeavesOutContradictoryLines,
    LeavesOutTheLastLine,
    ListsTheHeaderAlone,
    HeadsByTheFirstContradictoryLine,
    HeadsByTheHighestClash,
    NamesNoClash,
    Previews(Change, Misshown),
    Judges(Misjudged),
    Makes(Mismade),
    UndefinedIsTrue,
    UndefinedIsFalse,
    UndefinedIsAContradiction,
    LoadKeepsFacts,
    RefusedPutInTakesOut,
    TakenOutStaysInTheModel,
    KeepsTheLastPutIn,
    CountsTheConfirmingRound,
    RoundsOfTheBookAlone,
    ListsRoundsBeforeFacts,
    NoNameReachesItself,
    ReachesByPlainLiterals,
    ReachesByRulesForTheName,
    TakesTheHighestGroup,
    ListsGroupsByNumber,
    FactsEndTheReach,
    StepsForgetFacts,
    StepsKnowTruthsAlone,
}

impl Calls for Wrong {
    fn size(&self, file: &[u8]) -> Result<BookSize, Refused> {
        let sized = size(&self.misread(file)?);
        match self.how {
            How::HeadsAreSized => sized.map(|size| BookSize {
                body_literals: size.body_literals + size.rules,
                ..size
            }),
            // By what the lines before the fault fill.
            How::SizesRefusedFiles => sized.or_else(|refused| {
                let lines = gen::lines_of(file);
                let before = lines[..refused.line().saturating_sub(1).min(lines.len())].concat();
                size(&[&before[..], b"end\n"].concat())
            }),
            _ => sized,
        }
    }

    fn load(&mut self, file: &[u8]) -> Result<(), Refused> {
        let facts = self.desk.facts().clone();
        self.desk.load(&self.misread(file)?)?;
        self.last = None;
        if self.how == How::LoadKeepsFacts {
            facts.into_iter().for_each(|fact| {
                let _ = self.desk.put_in(fact);
            });
        }
        Ok(())
    }

    fn put_in(&mut self, literal: usize) -> Result<(), Refused> {
        match self.how {
            How::PutInStoresNothing => self.desk.clone().put_in(literal),
            How::RefusedPutInTakesOut => self.desk.put_in(literal).inspect_err(|_| {
                let _ = self.desk.take_out(literal);
            }),
            _ => self.desk.put_in(literal),
        }?;
        self.last = Some(literal);
        Ok(())
    }

    fn take_out(&mut self, literal: usize) -> Result<(), Refused> {
        self.desk.take_out(literal)
    }

    fn verdict(&self, literal: usize) -> Result<Verdict, Refused> {
        let answer = self.desk.verdict(literal);
        match (self.how, answer) {
            (_, Err(Refused::NoBook | Refused::NoSuchLiteral)) => answer,
            (How::Refuses(astray), _) => astray.verdict(&self.desk, literal),
            (How::UndefinedIsTrue, Ok(Verdict::Undefined)) => Ok(Verdict::True),
            (How::UndefinedIsFalse, Ok(Verdict::Undefined)) => Ok(Verdict::False),
            (How::UndefinedIsAContradiction, Ok(Verdict::Undefined)) => Err(Refused::Contradictory),
            _ => answer,
        }
    }

    fn search(&self, question: Question) -> Result<bool, Refused> {
        let walk = self.desk.search(question, MOST_VISITS)?;
        Ok(match (self.how, walk) {
            (How::SearchSaysNo, _) | (How::LongSearchSaysNo, None) => false,
            (_, Some(answer)) => answer,
            (_, None) => answer_by_model(question, &self.desk.model()?),
        })
    }

    fn model(&self) -> Result<Model, Refused> {
        let mut modelled = self.desk.clone();
        match (self.how, self.last) {
            (How::ModelOfTheBookAlone, _) => modelled = self.without_facts()?,
            (How::TakenOutStaysInTheModel, Some(last)) => {
                // Where the literal wasn't taken out this is refused: that is no matter.
                let _ = modelled.put_in(last);
            }
            _ => {}
        }
        let mut model = modelled.model()?;
        match self.how {
            How::CountsTheConfirmingRound => model.rounds += 1,
            How::RoundsOfTheBookAlone => model.rounds = self.without_facts()?.model()?.rounds,
            _ => {}
        }
        Ok(model)
    }

    fn listing(&self, buffer: &mut [u8]) -> Result<usize, Refused> {
        let length = buffer.len();
        match self.how {
            How::ShortBufferOfALongOne if length > 30 && self.desk.book().is_some() => {
                Err(Refused::BufferTooShort)
            }
            How::ListsSmallLetters => {
                let written = self.desk.listing(buffer)?;
                buffer[..written].make_ascii_lowercase();
                Ok(written)
            }
            How::WritesPastTheListing => {
                let written = self.desk.listing(buffer)?;
                buffer[written..].fill(0);
                Ok(written)
            }
            _ => match self.mislisted()? {
                Some(text) => {
                    let lent = buffer.get_mut(..text.len());
                    lent.ok_or(Refused::BufferTooShort)?
                        .copy_from_slice(text.as_bytes());
                    Ok(text.len())
                }
                None => self.desk.listing(buffer),
            },
        }
    }

    fn preview(
        &mut self,
        change: Change,
        literal: usize,
        buffer: &mut [u8],
    ) -> Result<usize, Refused> {
        match self.how {
            How::Previews(wrong, misshown) if wrong == change => {
                misshown.preview(&mut self.desk, change, literal, buffer)
            }
            _ => self.desk.preview(change, literal, buffer),
        }
    }

    fn working_order(&self) -> Result<WorkingOrder, Refused> {
        let WorkingOrder { groups } = self.desk.working_order()?;
        let book = self.desk.book().expect("an order is of a book");
        let groups = self.misordered(groups, book);
        Ok(WorkingOrder { groups })
    }

    fn model_by_groups(&self) -> Result<ModelByGroups, Refused> {
        match self.how {
            How::StepsForgetFacts => self.without_facts()?.model_by_groups(),
            How::StepsKnowTruthsAlone => by_truths_alone(&self.desk),
            _ => self.desk.model_by_groups(),
        }
    }

    fn check_sheet(&self, claim: Claim, sheet: &[SheetEntry]) -> Result<(), Refused> {
        match self.how {
            How::Judges(misjudged) => misjudged.check(&self.desk, claim, sheet),
            _ => self.desk.check_sheet(claim, sheet),
        }
    }

    fn make_sheet(&self, claim: Claim, run: &mut [SheetEntry]) -> Result<usize, Refused> {
        match self.how {
            How::Makes(mismade) => mismade.make(&self.desk, claim, run),
            _ => self.desk.make_sheet(claim, run),
        }
    }

    fn state(&self) -> Vec<u8> {
        let last = match self.how {
            How::KeepsTheLastPutIn => self.last,
            _ => None,
        };
        format!("{:?} {last:?}", self.desk).into_bytes()
    }
}
