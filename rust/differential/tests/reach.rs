//! What the lists reach.

use differential::{List, Plan, Tally};

#[test]
fn every_refusal_and_branch_is_met() {
    let plan = Plan {
        calls: 60_000,
        jobs: 0,
        seed: 9,
        ..Plan::default()
    };
    let tally = plan.run().unwrap_or_else(|found| panic!("{found}"));
    let refusals = [0, 1, 2, 3, 4, 5, 6, 7, 8, 9, 11, 12, 13];
    assert_eq!(tally.refusals(), refusals);
    assert_eq!(tally.branches(), [1, 2, 3, 4, 5, 6]);
    assert!(tally.wrong_lengths > 5_000);
    assert!(tally.lent_otherwise > 5_000);
    assert!(tally.readings().iter().all(|&count| count > 50_000));
    assert!(tally.odd_lists > 10 && tally.odd_lists < tally.lists / 2);
}

#[test]
fn jobs_have_float_lines_of_each_sort() {
    let plan = Plan {
        calls: 0,
        jobs: 600,
        ..Plan::default()
    };
    let tally = plan.run().unwrap_or_else(|found| panic!("{found}"));
    for (refusal, least) in [(0, 500), (2, 500), (3, 40), (10, 200), (13, 100)] {
        assert!(tally.float_lines(refusal) > least, "{refusal}: {tally}");
    }
}

/// Of lists from an area of any content alone.
#[test]
fn areas_of_any_content_reach_every_branch() {
    let mut tally = Tally::default();
    let lists = (0..200).map(|seed| List::of_calls(seed, 300));
    for list in lists.filter(|list| list.start.is_some()) {
        tally.lists += 1;
        list.run(None, &mut tally)
            .unwrap_or_else(|stop| panic!("{}", stop.difference));
    }
    assert!(tally.lists > 20, "{tally}");
    assert_eq!(tally.branches(), [1, 2, 3, 4, 5, 6], "{tally}");
}

/// The same seed gives the same list.
#[test]
fn lists_depend_on_their_seed_alone() {
    for seed in 0..10 {
        assert_eq!(
            List::of_calls(seed, 50).calls,
            List::of_calls(seed, 50).calls
        );
        assert_eq!(List::of_jobs(seed, 2).calls, List::of_jobs(seed, 2).calls);
    }
    assert_ne!(List::of_calls(1, 50).calls, List::of_calls(2, 50).calls);
}
