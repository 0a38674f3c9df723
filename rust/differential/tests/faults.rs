//! Each planted fault is found within the gate's number of calls.

use differential::{Plan, LIST_CALLS};
use reference::Fault;

fn plan(calls: u64, jobs: u64, fault: Option<Fault>) -> Plan {
    Plan {
        calls,
        jobs,
        fault,
        ..Plan::default()
    }
}

#[test]
fn calls_find_every_fault_and_show_it_in_few_calls() {
    for fault in Fault::ALL {
        let found = plan(Plan::default().calls, 0, Some(fault)).run();
        let found = found.expect_err("a fault was planted");
        assert!(found.list.calls.len() <= 12, "{fault:?}: {found}");
        assert_eq!(found.stop.calls, found.list.calls.len(), "{found}");
    }
}

#[test]
fn a_sound_reference_shows_none() {
    let tally = plan(20 * LIST_CALLS as u64, 0, None).run();
    tally.unwrap_or_else(|found| panic!("{found}"));
}

#[test]
fn jobs_find_every_fault_that_their_lines_can_show_and_show_it_in_few_lines() {
    for fault in Fault::ALL {
        if !fault.shows_in_jobs() {
            continue;
        }
        let found = plan(0, Plan::default().jobs, Some(fault)).run();
        let found = found.expect_err("a fault was planted");
        assert!(
            found.to_string().lines().count() <= 20,
            "{fault:?}: {found}"
        );
    }
}
