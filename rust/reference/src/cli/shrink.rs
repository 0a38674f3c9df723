//! A job made small while it still shows a difference.

/// Runs of the program that shrinking may take.
const RUNS: usize = 400;

/// Leaves lines out, in ever smaller groups, as long as the rest differs too.
pub fn shrink<E>(
    text: &[u8],
    mut differs: impl FnMut(&[u8]) -> Result<bool, E>,
) -> Result<Vec<u8>, E> {
    let mut lines: Vec<&[u8]> = text.split_inclusive(|&byte| byte == b'\n').collect();
    let mut group = lines.len().div_ceil(2);
    let mut runs = 0;
    while group > 0 {
        let mut start = 0;
        let mut removed = false;
        while start < lines.len() && runs < RUNS {
            let end = (start + group).min(lines.len());
            let rest = [&lines[..start], &lines[end..]].concat();
            runs += 1;
            if differs(&rest.concat())? {
                lines = rest;
                removed = true;
            } else {
                start = end;
            }
        }
        if !removed || runs >= RUNS {
            group /= 2;
        }
    }
    Ok(lines.concat())
}

#[cfg(test)]
mod tests {
    use super::*;

    #[test]
    fn only_the_lines_that_matter_stay() {
        let text: String = (0..300).map(|number| format!("{number}\n")).collect();
        let has = |text: &[u8], line: &str| {
            let wanted = line.as_bytes();
            text.split(|&byte| byte == b'\n').any(|line| line == wanted)
        };
        let differs = |text: &[u8]| Ok::<_, ()>(has(text, "17") && has(text, "251"));
        assert_eq!(shrink(text.as_bytes(), differs), Ok(b"17\n251\n".to_vec()));
    }
}
