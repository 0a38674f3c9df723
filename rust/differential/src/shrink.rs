//! A list made short while it still shows a difference.

use crate::list::List;
use crate::tally::Tally;
use reference::{Call, Fault};

/// Runs that one shrinking may take.
const RUNS: usize = 2_000;

/// Leaves items out, in ever smaller groups, as long as the rest differs too.
pub fn fewest<T: Clone>(items: &[T], mut differs: impl FnMut(&[T]) -> bool) -> Vec<T> {
    let mut items = items.to_vec();
    let mut group = items.len().div_ceil(2);
    let mut runs = 0;
    while group > 0 {
        let mut start = 0;
        let mut removed = false;
        while start < items.len() && runs < RUNS {
            let end = (start + group).min(items.len());
            let rest = [&items[..start], &items[end..]].concat();
            runs += 1;
            if differs(&rest) {
                items = rest;
                removed = true;
            } else {
                start = end;
            }
        }
        if !removed || runs >= RUNS {
            group /= 2;
        }
    }
    items
}

fn differs(list: &List, fault: Option<Fault>) -> bool {
    list.run(fault, &mut Tally::default()).is_err()
}

/// The lines of a job, each with its line feed.
fn lines(text: &[u8]) -> Vec<&[u8]> {
    text.split_inclusive(|&byte| byte == b'\n').collect()
}

/// The job of one call with fewer lines and no more output than it needs.
fn shrink_job(list: &mut List, index: usize, fault: Option<Fault>) {
    let Call::RunJob { text, buffer } = list.calls[index].clone() else {
        return;
    };
    let mut with = |text: Vec<u8>, buffer: Vec<u8>| {
        list.calls[index] = Call::RunJob { text, buffer };
        differs(list, fault)
    };
    let text = fewest(&lines(&text), |lines| with(lines.concat(), buffer.clone())).concat();
    let mut short = buffer.clone();
    short.truncate(mezhtolik::job_room(&text));
    if !with(text.clone(), short) {
        with(text, buffer);
    }
}

/// A short list with a difference: fewer calls, and fewer lines in its jobs.
pub fn shrink(list: &List, fault: Option<Fault>) -> List {
    let fewer_calls = |list: &List| {
        let with = |calls: &[Call]| List {
            start: list.start,
            calls: calls.to_vec(),
        };
        with(&fewest(&list.calls, |calls| differs(&with(calls), fault)))
    };
    let mut list = fewer_calls(list);
    for index in 0..list.calls.len() {
        shrink_job(&mut list, index, fault);
    }
    // a job that has lost its lines may not be needed
    fewer_calls(&list)
}

#[cfg(test)]
mod tests {
    use super::*;

    #[test]
    fn only_what_matters_stays() {
        let items: Vec<u32> = (0..300).collect();
        let differs = |items: &[u32]| items.contains(&17) && items.contains(&251);
        assert_eq!(fewest(&items, differs), [17, 251]);
    }
}
