//! The lines and numbers of a job read and nothing else: a limit to the speed
//! of a job. Every byte of a well-formed line is looked at once.

use reference::line::{LINE, RAWS};

/// What is told of the lines.
trait Sink {
    /// The next number of the line, or the bits of its next float.
    fn number(&mut self, number: i32);
    /// The line is at its end; no letter is that of a malformed one.
    fn line(&mut self, letter: Option<u8>);
}

/// Depends on every number of the well-formed lines, so that each is read.
#[derive(Default)]
struct Checksum {
    lines: u32,
    numbers: u32,
}

impl Sink for Checksum {
    #[inline(always)]
    fn number(&mut self, number: i32) {
        self.numbers = self.numbers.wrapping_mul(3).wrapping_add(number as u32);
    }

    #[inline(always)]
    fn line(&mut self, letter: Option<u8>) {
        if let Some(letter) = letter {
            let line = self.numbers ^ u32::from(letter);
            self.lines = self.lines.wrapping_mul(3).wrapping_add(line);
        }
        self.numbers = 0;
    }
}

/// "E,ev,value; W,tool,radius,length; O,offset,v1,v2,v3; C,probe,..": how many
/// fields a letter has, 0 where it opens no line. G, which has T's fields, is read
/// apart.
const FIELDS: [u8; 256] = {
    let mut fields = [0; 256];
    fields[b'E' as usize] = 2;
    fields[b'W' as usize] = 3;
    fields[b'O' as usize] = 4;
    fields[b'C' as usize] = 7;
    fields[b'T' as usize] = 21;
    fields[b'Z' as usize] = 13;
    fields
};

/// How many fields a G line has.
const FLOAT_FIELDS: usize = 21;

/// The value of a hexadecimal digit, in lower case; [`NO_DIGIT`] of another byte.
const HEXADECIMAL: [u8; 256] = {
    let mut values = [NO_DIGIT; 256];
    let mut value = 0;
    while value < 16 {
        values[b"0123456789abcdef"[value] as usize] = value as u8;
        value += 1;
    }
    values
};
const NO_DIGIT: u8 = 0xff;
/// The digits of a float's bits.
const BITS_DIGITS: usize = 8;

/// The most bytes of a field and the one that ends it: a minus, eight digits
/// and a comma or line feed. A field has this many bytes before it, all at known
/// places, so that none needs a test of the job's length.
const WINDOW: usize = 10;
const DIGITS: usize = WINDOW - 1;

/// A number, how many bytes it has, and the byte after it.
#[derive(Clone, Copy)]
struct Field {
    number: i32,
    length: usize,
    end: u8,
}

/// "one to eight digits, no needless leading zero".
#[inline(always)]
fn unsigned(window: &[u8; DIGITS]) -> Option<Field> {
    let digit = |place: usize| u32::from(window[place]).wrapping_sub(u32::from(b'0'));
    let mut value = digit(0);
    if value > 9 {
        return None;
    }
    // unrolled by the compiler
    for length in 1..DIGITS {
        let next = digit(length);
        if next > 9 {
            let number = value as i32;
            let end = window[length];
            let field = Field {
                number,
                length,
                end,
            };
            return (length == 1 || window[0] != b'0').then_some(field);
        }
        value = 10 * value + next;
    }
    None
}

/// "an optional minus .. no -0".
#[inline(always)]
fn signed(window: &[u8; WINDOW]) -> Option<Field> {
    let [first, digits @ ..] = window;
    if *first != b'-' {
        return unsigned(window.first_chunk()?);
    }
    if digits[0] == b'0' {
        return None;
    }
    let field = unsigned(digits)?;
    Some(Field {
        number: -field.number,
        length: field.length + 1,
        end: field.end,
    })
}

/// "eight lower-case hexadecimal digits of one float's bits, highest first".
#[inline(always)]
fn bits(window: &[u8; BITS_DIGITS + 1]) -> Option<Field> {
    let (mut value, mut other) = (0, 0);
    // unrolled by the compiler
    for digit in &window[..BITS_DIGITS] {
        let digit = HEXADECIMAL[usize::from(*digit)];
        other |= digit;
        value = value << 4 | u32::from(digit & 0xf);
    }
    let field = Field {
        number: value as i32,
        length: BITS_DIGITS,
        end: window[BITS_DIGITS],
    };
    (other < 16).then_some(field)
}

/// A field of the last few bytes.
#[cold]
#[inline(never)]
fn last_field(rest: &[u8]) -> Option<Field> {
    let mut window = [0; WINDOW];
    window[..rest.len()].copy_from_slice(rest);
    signed(&window)
}

#[inline(always)]
fn any_field(rest: &[u8]) -> Option<Field> {
    match rest.first_chunk() {
        Some(window) => signed(window),
        None => last_field(rest),
    }
}

/// The fields of a G line at the beginning of a text, and what comes after it;
/// none for a malformed one.
#[inline(always)]
fn float_line<'a>(text: &[u8], fields: &'a [u8], sink: &mut impl Sink) -> Option<&'a [u8]> {
    let mut rest = fields;
    for place in 0..FLOAT_FIELDS {
        let field = match RAWS.contains(&place) {
            // never the last field, so that a comma comes behind it
            true => bits(rest.first_chunk()?)?,
            false => any_field(rest)?,
        };
        sink.number(field.number);
        let last = place + 1 == FLOAT_FIELDS;
        if field.end != if last { b'\n' } else { b',' } {
            return None;
        }
        rest = rest.get(field.length + 1..)?;
    }
    let length = text.len() - rest.len() - 1;
    (length <= LINE).then_some(rest)
}

/// Reads the line at the beginning and gives what comes after it; none for a
/// malformed one.
#[inline(always)]
fn line<'a>(text: &'a [u8], sink: &mut impl Sink) -> Option<&'a [u8]> {
    let [letter, b',', fields @ ..] = text else {
        return None;
    };
    let mut missing = FIELDS[usize::from(*letter)];
    if *letter == b'G' {
        return float_line(text, fields, sink);
    }
    if missing == 0 {
        return None;
    }
    let mut rest = fields;
    loop {
        let field = any_field(rest)?;
        sink.number(field.number);
        missing = missing.wrapping_sub(1);
        rest = rest.get(field.length + 1..)?;
        if field.end != b',' {
            let length = text.len() - rest.len() - 1;
            let whole = field.end == b'\n' && missing == 0 && length <= LINE;
            return whole.then_some(rest);
        }
    }
}

/// Reads all lines; a last one without a line feed is none.
#[inline(always)]
fn read(text: &[u8], sink: &mut impl Sink) {
    let mut rest = text;
    while let Some(&letter) = rest.first() {
        if let Some(after) = line(rest, sink) {
            sink.line(Some(letter));
            rest = after;
            continue;
        }
        let Some(end) = rest.iter().position(|&byte| byte == b'\n') else {
            return;
        };
        sink.line(None);
        rest = &rest[end + 1..];
    }
}

/// The checksum of a job's lines and numbers.
pub fn checksum(text: &[u8]) -> u32 {
    let mut sum = Checksum::default();
    read(text, &mut sum);
    sum.lines
}

#[cfg(test)]
mod tests {
    use super::*;
    use reference::generate::{every_letter, job, small_job};
    use reference::line::{fields_of, read_line, write_line};
    use std::{fs, path::Path};

    /// Letter and numbers of a line, none for a malformed one.
    type Line = Option<(u8, Vec<i32>)>;

    #[derive(Default)]
    struct Lines {
        lines: Vec<Line>,
        numbers: Vec<i32>,
    }

    impl Sink for Lines {
        fn number(&mut self, number: i32) {
            self.numbers.push(number);
        }

        fn line(&mut self, letter: Option<u8>) {
            let numbers = std::mem::take(&mut self.numbers);
            self.lines.push(letter.map(|letter| (letter, numbers)));
        }
    }

    fn by_reference(line: &[u8]) -> Line {
        let (letter, fields) = fields_of(&read_line(line).ok()?)?;
        let numbers = fields.into_iter().map(|field| field as i32);
        Some((letter as u8, numbers.collect()))
    }

    /// The lines and the checksum are those of the lines that the reference
    /// reads, one by one; how many are well formed and how many are not.
    fn compare(text: &[u8]) -> [usize; 2] {
        let mut read_here = Lines::default();
        read(text, &mut read_here);
        let ended = text.split_inclusive(|&byte| byte == b'\n');
        let ended = ended.filter_map(|line| line.strip_suffix(b"\n"));
        let expected: Vec<Line> = ended.map(by_reference).collect();
        assert_eq!(read_here.lines, expected, "{}", text.escape_ascii());
        let mut sum = Checksum::default();
        for line in &expected {
            let numbers = line.iter().flat_map(|(_, numbers)| numbers);
            numbers.for_each(|&number| sum.number(number));
            sum.line(line.as_ref().map(|(letter, _)| *letter));
        }
        assert_eq!(checksum(text), sum.lines);
        let malformed = expected.iter().filter(|line| line.is_none()).count();
        [expected.len() - malformed, malformed]
    }

    fn compare_all(texts: impl IntoIterator<Item = Vec<u8>>) -> [usize; 2] {
        let counts = texts.into_iter().map(|text| compare(&text));
        counts.fold([0, 0], |sum, count| [sum[0] + count[0], sum[1] + count[1]])
    }

    #[test]
    fn the_jobs_of_the_folder() {
        let folder = Path::new(env!("CARGO_MANIFEST_DIR")).join("../../jobs");
        let files = fs::read_dir(folder).expect("the folder of jobs");
        let paths = files.map(|file| file.expect("a file").path());
        let jobs = paths.filter(|path| path.extension().is_some_and(|end| end == "txt"));
        let counts = compare_all(jobs.map(|path| fs::read(path).expect("a job")));
        assert!(counts[0] > 1_000 && counts[1] > 40, "{counts:?}");
    }

    #[test]
    fn generated_jobs() {
        let seeds = (0..600).flat_map(|seed| [job(seed), small_job(seed)]);
        let fixed = [every_letter(), crate::job::text()];
        let counts = compare_all(seeds.chain(fixed));
        assert!(counts.iter().all(|&count| count > 10_000), "{counts:?}");
    }

    /// Else the compiler could leave out the reading.
    #[test]
    fn the_checksum_depends_on_every_number_and_line() {
        for letter in ['T', 'G'] {
            let fields: [i64; 21] = std::array::from_fn(|place| place as i64);
            let text = |fields: &[i64; 21], end: &str| write_line(letter, fields) + "\n" + end;
            let sum = |text: String| checksum(text.as_bytes());
            let plain = sum(text(&fields, "E,1,2\n"));
            for place in 0..21 {
                let mut changed = fields;
                changed[place] += 1;
                let changed = sum(text(&changed, "E,1,2\n"));
                assert_ne!(changed, plain, "{letter}, field {place}");
            }
            for end in ["", "E,1,3\n", "E,1,02\n", "E,1,2\nE,1,2\n"] {
                assert_ne!(sum(text(&fields, end)), plain, "{end}");
            }
        }
    }

    /// Each form of a float's digits, at each of their places, with and without
    /// bytes after the line.
    #[test]
    fn forms_of_a_float() {
        let digits = (0..=10).map(|length| "0123456789abcdef"[..length].to_owned());
        let bytes = (0..=255u8).map(|byte| format!("0000000{}", char::from(byte)));
        let forms = digits
            .chain(bytes)
            .chain(["ABCDEF01", "-0000000"].map(str::to_owned));
        let line = |raws: [&str; 4]| {
            let raws = raws.join(",");
            format!("G,3,1,1,0,200000,0,0,{raws},4,0,2,5,20,100,150,-150,300,1000\n")
        };
        let texts = forms.flat_map(|form| {
            [0, 1, 2, 3].map(|place| {
                let mut raws = ["9abcdef0"; 4];
                raws[place] = &form;
                let end = ["", "E,1,1\n"][place % 2];
                (line(raws) + end).into_bytes()
            })
        });
        let counts = compare_all(texts);
        assert!(counts.iter().all(|&count| count > 60), "{counts:?}");
    }

    /// Each form of a number, in the middle and at the end of a line, with and
    /// without bytes after it.
    #[test]
    fn forms_of_a_number() {
        let digits = (0..=10).map(|length| "1234567890"[..length].to_owned());
        let signed = digits.flat_map(|digits| {
            let negative = format!("-{digits}");
            [digits, negative]
        });
        let zeros = ["0", "00", "-0", "-00", "01", "-01", "00000001"].map(str::to_owned);
        let wrong = [
            "+1", "--1", "1-", " 1", "1 ", "1\r", "/", ":", "1/", "1:", "1\u{b1}",
        ];
        let forms = signed.chain(zeros).chain(wrong.map(str::to_owned));
        let lines = forms.flat_map(|form| [format!("W,1,{form},3\n"), format!("E,1,{form}\n")]);
        let texts = lines.flat_map(|line| {
            let ends = ["", "\n", "E,1,1\nE,1,1", "W,1,2,3\nW,1,2,3\n"];
            ends.map(|end| (line.clone() + end).into_bytes())
        });
        let counts = compare_all(texts);
        assert!(counts.iter().all(|&count| count > 150), "{counts:?}");
    }
}
