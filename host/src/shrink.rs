//! Short inputs that still show a difference.

use crate::answer::SheetEntry;
use crate::gen::{lines_of, Call};

/// A list that still shows what `shows` looks for, and from which no single element can be left
/// out. Larger pieces are tried first, so that long inputs shrink fast.
pub fn shortest<T: Clone>(list: Vec<T>, shows: &mut dyn FnMut(&[T]) -> bool) -> Vec<T> {
    let mut list = list;
    let mut piece = (list.len() / 2).max(1);
    loop {
        let before = list.len();
        let mut from = 0;
        while from < list.len() {
            let to = (from + piece).min(list.len());
            let without = [&list[..from], &list[to..]].concat();
            if shows(&without) {
                list = without;
            } else {
                from = to;
            }
        }
        if piece == 1 && list.len() == before {
            return list;
        }
        piece = (piece / 2).max(1);
    }
}

/// A file from which neither a line nor a byte can be left out, with the capitals that it needs.
pub fn shortest_file(file: &[u8], shows: &mut dyn FnMut(&[u8]) -> bool) -> Vec<u8> {
    let lines = shortest(lines_of(file), &mut |lines: &[Vec<u8>]| {
        shows(&lines.concat())
    });
    let short = shortest(lines.concat(), shows);
    fewest_capitals(short, shows)
}

/// A file in which each capital that isn't needed is made small.
fn fewest_capitals(mut file: Vec<u8>, shows: &mut dyn FnMut(&[u8]) -> bool) -> Vec<u8> {
    for place in 0..file.len() {
        let mut trial = file.clone();
        trial[place].make_ascii_lowercase();
        if trial != file && shows(&trial) {
            file = trial;
        }
    }
    file
}

/// A list of calls from which no call can be left out, nor a line or byte of a loaded file, nor an entry of a proof
/// sheet.
pub fn shortest_calls(calls: Vec<Call>, shows: &mut dyn FnMut(&[Call]) -> bool) -> Vec<Call> {
    let mut calls = shortest(calls, shows);
    for place in 0..calls.len() {
        let mut trial = calls.clone();
        let mut shows_with = |call: Call| {
            trial[place] = call;
            shows(&trial)
        };
        calls[place] = match calls[place].clone() {
            Call::Load(file) => Call::Load(shortest_file(&file, &mut |file| {
                shows_with(Call::Load(file.to_vec()))
            })),
            Call::CheckSheet { claim, sheet } => {
                let with = |sheet| Call::CheckSheet { claim, sheet };
                let mut shows = |sheet: &[SheetEntry]| shows_with(with(sheet.to_vec()));
                with(shortest(sheet, &mut shows))
            }
            call => call,
        };
    }
    calls
}

#[cfg(test)]
mod tests {
    use super::*;

    #[test]
    fn what_is_left_is_what_is_needed() {
        let list: Vec<u32> = (0..1000).collect();
        let short = shortest(list, &mut |l| l.contains(&17) && l.contains(&801));
        assert_eq!(short, [17, 801]);
    }

    #[test]
    fn a_file_loses_lines_and_bytes() {
        let file = b"name,brake\nname,axle\nrule,brake,~axle\nend\n";
        let short = shortest_file(file, &mut |f| f.contains(&b'~') && f.contains(&b'\n'));
        assert_eq!(short, b"~\n");
    }

    #[test]
    fn a_file_keeps_the_capitals_that_are_needed() {
        let short = shortest_file(b"name,BRAKE\nend\n", &mut |f| {
            f.eq_ignore_ascii_case(b"name,brake\nend\n") && f.contains(&b'K')
        });
        assert_eq!(short, b"name,braKe\nend\n");
    }
}
