//! Random jobs as bytes.

use super::calls::CallSource;
use super::damage::{damage, line_of_length};
use super::rng::Rng;
use crate::job::{JOB_BYTES, JOB_LINES};
use crate::line::write_line;

/// Lines with their line feeds.
fn join(lines: &[Vec<u8>]) -> Vec<u8> {
    lines
        .iter()
        .flat_map(|line| line.iter().copied().chain([b'\n']))
        .collect()
}

/// Well-formed lines; one in `damage_percent` of a hundred is damaged.
fn mixed_lines(seed: u64, count: usize, damage_percent: usize) -> Vec<Vec<u8>> {
    let mut source = CallSource::new(seed);
    let mut lines = Vec::with_capacity(count);
    for _ in 0..count {
        let (letter, fields) = source.next_line();
        let line = write_line(letter, &fields).into_bytes();
        lines.push(match source.rng().chance(damage_percent) {
            true => damage(source.rng(), &line),
            false => line,
        });
    }
    lines
}

/// A job of few lines, well formed or damaged, sometimes refused as a whole.
pub fn small_job(seed: u64) -> Vec<u8> {
    let mut rng = Rng::new(seed);
    let count = rng.below(30);
    let damage_percent = rng.pick(&[0, 5, 30]);
    let mut text = join(&mixed_lines(rng.draw(), count, damage_percent));
    if rng.chance(10) {
        text.pop();
    }
    text
}

/// The job of a seed: realistic, damaged, truncated, of random bytes, or at the
/// limits of a job.
pub fn job(seed: u64) -> Vec<u8> {
    let mut rng = Rng::new(seed ^ 0x6a6f_6273);
    let count = rng.between(1, 90) as usize;
    match rng.weighted(&[50, 25, 5, 4, 5, 4, 7]) {
        0 => join(&mixed_lines(rng.draw(), count, 1)),
        1 => join(&mixed_lines(rng.draw(), count, 35)),
        2 => truncated(&mut rng, count),
        3 => random_bytes(&mut rng),
        4 => at_line_limit(&mut rng),
        5 => at_byte_limit(&mut rng),
        _ => odd_ends(&mut rng, count),
    }
}

/// Cut off anywhere; often just after a line feed that was put there.
fn truncated(rng: &mut Rng, count: usize) -> Vec<u8> {
    let mut text = join(&mixed_lines(rng.draw(), count, 2));
    text.truncate(rng.below(text.len() + 1));
    if rng.chance(60) {
        text.push(b'\n');
    }
    text
}

/// Bytes of any value, or only of those that stand in lines.
fn random_bytes(rng: &mut Rng) -> Vec<u8> {
    let length = rng.pick(&[1, 2, 10, 100, 2_000]);
    let narrow = rng.chance(60);
    let mut text: Vec<u8> = (0..length)
        .map(|_| match narrow {
            true => rng.pick(b"EWOCTZG,,,,-0123456789abcdef\n\n"),
            false => rng.draw() as u8,
        })
        .collect();
    if rng.chance(80) {
        text.push(b'\n');
    }
    text
}

/// 999 to 1,001 lines.
fn at_line_limit(rng: &mut Rng) -> Vec<u8> {
    let count = JOB_LINES - 1 + rng.below(3);
    let mut lines = mixed_lines(rng.draw(), count, 5);
    for line in &mut lines {
        // short enough for the bytes of a job
        if rng.chance(40) {
            *line = rng.pick(&["", "E,1,3", "W,1,7,0", "E,21,0"]).into();
        }
    }
    join(&lines)
}

/// 65,535 to 65,537 bytes in fewer than 1,000 lines.
fn at_byte_limit(rng: &mut Rng) -> Vec<u8> {
    let total = JOB_BYTES - 1 + rng.below(3);
    let mut text = join(&mixed_lines(rng.draw(), 300, 2));
    text.truncate(total - 1_000);
    while total - text.len() > 201 {
        let length = (total - text.len() - 2).min(150 + rng.below(50));
        text.extend(line_of_length(rng, length));
        text.push(b'\n');
    }
    let length = total - text.len() - 1;
    text.extend(line_of_length(rng, length));
    text.push(b'\n');
    text
}

/// No last line feed, one too many, nothing at all, only line feeds.
fn odd_ends(rng: &mut Rng, count: usize) -> Vec<u8> {
    let mut text = join(&mixed_lines(rng.draw(), count, 2));
    match rng.below(5) {
        0 => drop(text.pop()),
        1 => text.push(b'\n'),
        2 => text.clear(),
        3 => text = vec![b'\n'; rng.pick(&[1, 2, 1_000, 1_001])],
        _ => text.extend(b"E,1,1"),
    }
    text
}

#[cfg(test)]
mod tests {
    use super::*;

    #[test]
    fn jobs_at_the_byte_limit_have_the_bytes_and_lines_meant() {
        let mut seen = [false; 3];
        for seed in 0..60 {
            let text = at_byte_limit(&mut Rng::new(seed));
            seen[text.len() - (JOB_BYTES - 1)] = true;
            let lines = text.iter().filter(|&&byte| byte == b'\n').count();
            assert!(lines <= JOB_LINES, "{lines} lines");
        }
        assert_eq!(seen, [true; 3]);
    }

    #[test]
    fn jobs_at_the_line_limit_keep_to_the_bytes() {
        let mut seen = [false; 3];
        for seed in 0..40 {
            let text = at_line_limit(&mut Rng::new(seed));
            let lines = text.iter().filter(|&&byte| byte == b'\n').count();
            if let Some(seen) = lines.checked_sub(999).and_then(|over| seen.get_mut(over)) {
                *seen |= text.len() <= JOB_BYTES;
            }
        }
        assert_eq!(seen, [true; 3]);
    }
}
