//! Numbers and records, each as the other.

use std::collections::BTreeSet;

use differential::layout::{name, numbers, records};
use mezhtolik::AREA;

#[test]
fn each_number_has_a_record_and_a_name_of_its_own() {
    let mut names = BTreeSet::new();
    for place in 0..AREA {
        let mut area = [0; AREA];
        area[place] = 1;
        assert_eq!(numbers(&records(&area)), area, "{}", name(place));
        names.insert(name(place));
    }
    assert_eq!(names.len(), AREA);
    assert_eq!(name(6), "status of probe 1");
    assert_eq!(name(68), "length wear of tool 4");
    assert_eq!(name(136), "offset 4 on axis 3");
}

#[test]
fn numbers_beyond_a_record_become_the_nearest() {
    for (content, value, status) in [(i32::MAX, 32_767, 255), (i32::MIN, -32_768, 0)] {
        let records = records(&[content; AREA]);
        assert_eq!((records.ev, records.mv), ([value; 20], [value; 20]));
        assert_eq!(records.status, [status; 3]);
        assert_eq!(records.triggers, [[content; 6]; 3]);
        assert_eq!(records.offsets, [[content; 3]; 4]);
    }
}
