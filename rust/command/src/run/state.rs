//! All records of a package as a text: a first line with the version, then a line for each record, in the order of the table.
//!
//! A package that has more records counts the version up and says at each new store since which version it is there. So it reads older files, whose
//! missing records begin fresh, and an older package refuses newer files, whose records it would lose.

use mezhtolik::Package;

use crate::records::{each, Store, STORES};

/// The version that this package writes.
pub const VERSION: u32 = 1;
const TITLE: &str = "mezhtolik state ";
const UNCALIBRATED: &str = "not calibrated";

/// The state of a package.
pub fn write(package: &Package) -> String {
    let records = each(&STORES).map(|(store, n)| {
        let number = (store.get)(package, n);
        format!("{}: {}\n", (store.name)(n), written(store, number))
    });
    format!("{TITLE}{VERSION}\n{}", records.collect::<String>())
}

fn written(store: &Store, number: Option<i32>) -> String {
    match number {
        Some(number) => format!("{number} {}", store.unit.letter()),
        None => UNCALIBRATED.into(),
    }
}

/// The package of a state, or what is wrong with it.
pub fn read(text: &[u8]) -> Result<Package, String> {
    read_version(text, VERSION, &STORES)
}

fn read_version(text: &[u8], newest: u32, stores: &[Store]) -> Result<Package, String> {
    let text = std::str::from_utf8(text).map_err(|_| "this is no state file".to_string())?;
    let mut lines = text.split_terminator('\n');
    let version = version(lines.next().unwrap_or_default(), newest)?;
    let mut package = Package::fresh();
    let records = each(stores).filter(|(store, _)| store.since <= version);
    for (at, (store, n)) in records.enumerate() {
        let (name, line) = ((store.name)(n), at + 2);
        let text = lines
            .next()
            .ok_or_else(|| format!("the line of {name} is missing, so the file is not whole"))?;
        put(&mut package, store, n, text).map_err(|why| format!("line {line}: {why}"))?;
    }
    match lines.next() {
        Some(line) => Err(format!("behind its last record it has '{line}'")),
        None if !text.ends_with('\n') => {
            Err("its last line has no end, so the file is not whole".into())
        }
        None => Ok(package),
    }
}

/// The version in the first line.
fn version(line: &str, newest: u32) -> Result<u32, String> {
    let number = line
        .strip_prefix(TITLE)
        .and_then(exact::<u32>)
        .filter(|&version| version > 0);
    match number {
        None => Err(format!("this is no state file: its first line is not '{TITLE}' and a version")),
        Some(version) if version > newest => Err(format!(
            "a later package wrote this (state {version}; this package reads up to {newest}); use that one, the file is left as it is"
        )),
        Some(version) => Ok(version),
    }
}

/// A number in the one form in which it is written.
fn exact<T: std::str::FromStr + ToString>(text: &str) -> Option<T> {
    text.parse()
        .ok()
        .filter(|number: &T| number.to_string() == text)
}

/// Puts the record of a line.
fn put(package: &mut Package, store: &Store, n: usize, line: &str) -> Result<(), String> {
    let name = (store.name)(n);
    let expected = || format!("'{line}' stands where '{name}: ' and its value should be");
    let value = line
        .strip_prefix(&name)
        .and_then(|rest| rest.strip_prefix(": "))
        .ok_or_else(expected)?;
    if value == UNCALIBRATED && store.fresh.is_none() {
        return Ok(());
    }
    let unit = store.unit.letter();
    let number = value
        .strip_suffix(unit)
        .and_then(|value| value.strip_suffix(' '))
        .and_then(exact::<i32>);
    let number =
        number.ok_or_else(|| format!("{name}: '{value}' is no number with the unit {unit}"))?;
    (store.put)(package, n, number)
        .map_err(|refusal| format!("{name}: {number} {unit} is {refusal}"))
}

#[cfg(test)]
mod tests {
    use super::*;
    use crate::units::Unit;

    /// A package with a record of every store changed, by calls.
    fn used() -> Package {
        let mut package = Package::fresh();
        let job = b"C,1,1,0,0,-500,0,1000\nC,3,3,1,0,0,0,1000\nE,20,-32768\nW,32,2000000,-2000000\nO,4,1,-20000000,20000000\n";
        let mut output = [0; 200];
        package.run_job(job, &mut output).unwrap();
        let mut block = [0; mezhtolik::BLOCK];
        package.save(&mut block).unwrap();
        block[78..].copy_from_slice(&[0xff, 0x7f]);
        package.load(&block).unwrap();
        package
    }

    #[test]
    fn a_state_leads_back_to_its_package() {
        for package in [Package::fresh(), used()] {
            assert_eq!(read(write(&package).as_bytes()), Ok(package));
        }
        let text = write(&used());
        for line in [
            "mezhtolik state 1",
            "probe 1 abscissa positive trigger: 500 u",
            "probe 1 abscissa negative trigger: not calibrated",
            "probe 3 applicate negative trigger: 0 u",
            "empirical value 20: -32768 u",
            "mean value 20: 32767 u",
            "tool 32 radius wear: 2000000 h",
            "tool 32 length wear: -2000000 h",
            "zero offset 4 applicate: 20000000 h",
        ] {
            assert!(text.lines().any(|other| other == line), "{line}");
        }
        assert_eq!(text.lines().count(), 1 + 18 + 20 + 20 + 64 + 12);
    }

    fn wrong(text: &str) -> String {
        read(text.as_bytes()).unwrap_err()
    }

    #[test]
    fn a_text_that_is_no_whole_state_is_refused() {
        let state = write(&Package::fresh());
        let lines: Vec<&str> = state.split_inclusive('\n').collect();
        assert!(wrong("").contains("no state file"));
        assert!(wrong("E,1,2\n").contains("no state file"));
        assert!(read(&[0xff, 0xfe]).unwrap_err().contains("no state file"));
        assert!(wrong(&state.replacen("state 1", "state 0", 1)).contains("no state file"));
        assert!(wrong(&state.replacen("state 1", "state 01", 1)).contains("no state file"));
        for end in 1..lines.len() {
            assert!(wrong(&lines[..end].concat()).contains("not whole"));
        }
        assert!(wrong(state.trim_end()).contains("no end"));
        assert!(wrong(&format!("{state}clock: 0 min\n")).contains("'clock: 0 min'"));
        for (right, bad, word) in [
            (
                "value 1: 0 u",
                "value 1: 0 h",
                "line 20: empirical value 1: '0 h' is no number",
            ),
            ("value 1: 0 u", "value 1: +0 u", "is no number"),
            ("value 1: 0 u", "value 1: -0 u", "is no number"),
            ("value 1: 0 u", "value 1: 00 u", "is no number"),
            ("value 1: 0 u", "value 1: 0", "is no number"),
            ("value 1: 0 u", "value 1: not calibrated", "is no number"),
            ("value 1: 0 u", "value 1: 9999999999 u", "is no number"),
            (
                "empirical value 1: 0 u",
                "empirical value 1: 32768 u",
                "refused by 3",
            ),
            (
                "mean value 20: 0 u",
                "mean value 20: -32769 u",
                "refused by 3",
            ),
            (
                "tool 1 radius wear: 0",
                "tool 1 radius wear: 2000001",
                "refused by 3",
            ),
            (
                "offset 1 abscissa: 0",
                "offset 1 abscissa: -20000001",
                "refused by 3",
            ),
            (
                "negative trigger: not calibrated",
                "negative trigger: 100001 u",
                "refused by 9",
            ),
            (
                "negative trigger: not calibrated",
                "negative trigger: uncalibrated",
                "is no number",
            ),
            (
                "value 1: 0 u",
                "value 2: 0 u",
                "stands where 'empirical value 1: '",
            ),
        ] {
            let said = wrong(&state.replacen(right, bad, 1));
            assert!(said.contains(word), "{bad}: {said}");
        }
    }

    #[test]
    fn a_later_package_reads_an_older_state_and_not_the_other_way_round() {
        let clock = Store {
            since: 2,
            records: 1,
            unit: Unit::U,
            name: |_| "clock".into(),
            get: |_, _| Some(0),
            put: |_, _, _| Ok(()),
            fresh: Some(0),
        };
        let later: Vec<Store> = STORES.into_iter().chain([clock]).collect();
        let old = write(&used());
        assert_eq!(read_version(old.as_bytes(), 2, &later), Ok(used()));
        let new = old.replacen("state 1", "state 2", 1) + "clock: 5 u\n";
        assert_eq!(read_version(new.as_bytes(), 2, &later), Ok(used()));
        assert!(wrong(&new)
            .contains("a later package wrote this (state 2; this package reads up to 1)"));
        let short = old.replacen("state 1", "state 2", 1);
        assert!(read_version(short.as_bytes(), 2, &later)
            .unwrap_err()
            .contains("clock is missing"));
    }
}
