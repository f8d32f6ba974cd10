//! Books whose rounds are known for every count of names (document 02, A.10).

use mezhkura::answer::{Refused, MOST_LISTING};
use mezhkura::gen;
use mezhkura::second::{Book, MOST_NAMES};

/// A book and facts to put in, with the rounds of the model and the header of the listing.
pub struct Known {
    pub book: Book,
    pub facts: Vec<usize>,
    pub rounds: usize,
    pub header: String,
}

impl Known {
    /// A desk after these calls of its kind: a load of the book, and the facts put in.
    pub fn left_on<D>(
        &self,
        mut desk: D,
        load: fn(&mut D, &[u8]) -> Result<(), Refused>,
        put_in: fn(&mut D, usize) -> Result<(), Refused>,
    ) -> D {
        load(&mut desk, self.book.to_file().as_bytes()).expect("the book loads");
        for &fact in &self.facts {
            put_in(&mut desk, fact).expect("the fact is out");
        }
        desk
    }
}

/// The header that a listing call writes.
pub fn header_of(listing: impl FnOnce(&mut [u8]) -> Result<usize, Refused>) -> String {
    let mut buffer = [0; MOST_LISTING];
    let length = listing(&mut buffer).expect("the buffer is long");
    let text = String::from_utf8_lossy(&buffer[..length]);
    text.lines().next().expect("a header").to_string()
}

/// Four books for each count of names.
pub fn known_rounds() -> impl Iterator<Item = Known> {
    (1..=MOST_NAMES).flat_map(|n| {
        let (bound, rounds) = (gen::bound_book(n), gen::rounds_book(n));
        [
            known(rounds, 2 * n - 1, None, n),
            // The bound counts facts put in as heads. Without them it would be false of the next two: the
            // rules have 2n - 1 distinct heads in the first, where there are 2n rounds, and none in the
            // second, where there is 1.
            known(without_the_first_rule(&bound), 4 * n - 2, Some(0), 2 * n),
            known(without_rules(&bound), 0, Some(2 * n - 1), 1),
            known(bound, 4 * n - 1, None, 2 * n),
        ]
    })
}

fn without_the_first_rule(book: &Book) -> Book {
    Book {
        names: book.names.clone(),
        rules: book.rules[1..].to_vec(),
    }
}

fn without_rules(book: &Book) -> Book {
    Book {
        names: book.names.clone(),
        rules: Vec::new(),
    }
}

/// Only the books with a round for each literal are contradictory, and name 0 has both literals in M.
fn known(book: Book, rules: usize, fact: Option<usize>, rounds: usize) -> Known {
    let names = book.names.len();
    let facts = Vec::from_iter(fact);
    let counts = format!("{names},{rules},{},{rounds}", facts.len());
    let header = if rounds == 2 * names {
        format!("contradiction,{counts},{}", book.names[0])
    } else {
        format!("model,{counts}")
    };
    Known {
        book,
        facts,
        rounds,
        header,
    }
}
