//! What `settle` prints for a period file, by a second implementation that has the whole file before it.

use std::fmt::Write;

use crate::call::Call;
use crate::model::Book;
use cepnhoy::{Allocated, Reading, Registration, ROW_WORDS, UNITS};

/// `settle` is for up to 512 meters.
pub const METERS: usize = 512;
pub const ROW_WORDS_LENT: usize = ROW_WORDS * METERS;

const LINE_BYTES_MOST: usize = 80;
const DIGITS_MOST: usize = 18;

/// The kinds of line, in the order in which they stand.
const KINDS: [&str; 6] = ["take", "tolerance", "weight", "shape", "meter", "reading"];

/// Of the kinds, the first two stand at most once.
const ONCE: usize = 2;

/// A number of 1 to 18 digits without leading zeros.
fn number(field: &str) -> Option<u64> {
    let all_digits = field.bytes().all(|byte| byte.is_ascii_digit());
    let leading_zero = field.len() > 1 && field.starts_with('0');
    if !all_digits || leading_zero || field.is_empty() || field.len() > DIGITS_MOST {
        return None;
    }
    field.parse().ok()
}

/// A number, or a minus and a number other than 0.
fn signed_number(field: &str) -> Option<i64> {
    match field.strip_prefix('-') {
        Some("0") => None,
        Some(size) => Some(-(number(size)? as i64)),
        None => Some(number(field)? as i64),
    }
}

/// Exactly so many numbers, with commas between them.
fn numbers<const COUNT: usize>(fields: &[&str]) -> Option<[u64; COUNT]> {
    let all: Option<Vec<u64>> = fields.iter().map(|field| number(field)).collect();
    all?.try_into().ok()
}

fn meter(fields: &[&str]) -> Option<Call> {
    let (flag, additional) = match *fields.get(5)? {
        "-" => (0, 0),
        unit => (1, number(unit)?),
    };
    let [mpan, segment, direction, status, base] = numbers(&fields[..5])?;
    let [category, llf, network, tariff] = numbers(&fields[6..])?;
    let registration =
        Registration { segment, direction, status, base, flag, additional, category, llf, network, tariff };
    Some(Call::Register { mpan, registration })
}

fn reading(fields: &[&str]) -> Option<Call> {
    let [mpan, issue, quality, consumption] = numbers(fields)?;
    let reading = Reading { issue, quality, consumption };
    Some(Call::Reading { mpan, reading })
}

/// The call that a line makes, or none if the line by itself is out of form.
pub fn call_of(line: &[u8]) -> Option<Call> {
    if line.len() > LINE_BYTES_MOST {
        return None;
    }
    let (key, value) = std::str::from_utf8(line).ok()?.split_once('=')?;
    let fields: Vec<&str> = value.split(',').collect();
    match key {
        "take" => Some(Call::Take { wh: signed_number(value)? }),
        "tolerance" => Some(Call::Tolerance { g: number(value)? }),
        "weight" => {
            let [class, thousandths] = numbers(&fields)?;
            Some(Call::Weight { class, thousandths })
        }
        "shape" => {
            let [category, wh] = numbers(&fields)?;
            Some(Call::Shape { category, wh })
        }
        "meter" => meter(&fields),
        "reading" => reading(&fields),
        _ => None,
    }
}

fn kind_of(line: &[u8]) -> Option<usize> {
    let key = line.split(|byte| *byte == b'=').next()?;
    KINDS.iter().position(|kind| kind.as_bytes() == key)
}

/// The lines of a file. The last line's end may be missing, and an empty file has no line.
pub fn lines_of(input: &[u8]) -> Vec<&[u8]> {
    let mut lines: Vec<&[u8]> = input.split(|byte| *byte == b'\n').collect();
    if lines.last().is_some_and(|last| last.is_empty()) {
        lines.pop();
    }
    lines
}

/// The calls of the lines up to the first one out of form, and whether there is such a line.
fn calls_of(lines: &[&[u8]]) -> (Vec<Call>, bool) {
    let mut calls = Vec::new();
    let mut kind_before = None;
    for line in lines {
        let kind = kind_of(line);
        let in_order = kind > kind_before || (kind == kind_before && kind >= Some(ONCE));
        match call_of(line) {
            Some(call) if in_order => calls.push(call),
            _ => return (calls, true),
        }
        kind_before = kind;
    }
    (calls, false)
}

/// What is printed of an allocation.
pub fn allocation_text(answer: &Allocated, volumes: &[i64]) -> String {
    let mut text = format!("status={}\n", answer.number);
    if answer.number != 0 {
        return text;
    }
    let figures = [
        ("actual", i128::from(answer.actual)),
        ("estimated", i128::from(answer.estimated)),
        ("defaulted", i128::from(answer.defaulted)),
        ("idle", i128::from(answer.idle)),
        ("unallocated", i128::from(answer.unallocated)),
        ("weighted", i128::from(answer.weighted)),
    ];
    for (name, value) in figures {
        let _ = writeln!(text, "{name}={value}");
    }
    for (unit, wh) in volumes[..UNITS].iter().enumerate() {
        if *wh != 0 {
            let _ = writeln!(text, "volume={unit},{wh}");
        }
    }
    text
}

/// All bytes that `settle` prints for a file.
pub fn output_of(input: &[u8]) -> Vec<u8> {
    let (calls, out_of_form) = calls_of(&lines_of(input));
    let mut book = Book::fresh(vec![0; ROW_WORDS_LENT]);
    let mut text = String::new();
    for (index, call) in calls.iter().enumerate() {
        let number = book.make(call);
        if number != 0 {
            let _ = writeln!(text, "refused={},{number}", index + 1);
        }
    }
    if out_of_form {
        let _ = writeln!(text, "line={}", calls.len() + 1);
        return text.into_bytes();
    }
    let allocation = book.allocate(UNITS);
    let volumes = allocation.volumes_after(&[0; UNITS]);
    text.push_str(&allocation_text(&allocation.answer, &volumes));
    text.into_bytes()
}

#[cfg(test)]
mod tests {
    use super::{call_of, output_of};

    const IN_FORM: [&str; 9] = [
        "take=0",
        "take=-1",
        "take=999999999999999999",
        "tolerance=1000",
        "weight=24,1001",
        "shape=63,4294967295",
        "meter=1200000000002,1,0,2,0,-,0,1000,0,0",
        "meter=1200000000002,1,0,2,0,0,0,1000,64,1024",
        "reading=1200000000002,1,0,100",
    ];

    const OUT_OF_FORM: [&str; 26] = [
        "",
        "=",
        "take",
        "take=",
        "take=-",
        "take=-0",
        "take=+1",
        "take=--1",
        "take=01",
        "take= 1",
        "take=1\r",
        "take=1000000000000000000",
        "Take=1",
        "tolerance=-1",
        "weight=8",
        "weight=8,1000,",
        "weight=8,1000,1",
        "weight=8,,1000",
        "shape=63,-",
        "meter=1200000000002,1,0,2,0",
        "meter=1200000000002,1,0,2,0,-,0,1000",
        "meter=1200000000002,1,0,2,0,-,0,1000,0",
        "meter=1200000000002,1,0,2,0,-,0,1000,0,0,0",
        "meter=1200000000002,1,0,2,-,-,0,1000,0,0",
        "meter=1200000000002,1,0,2,0,-,0,1000,-,0",
        "volume=0,1",
    ];

    #[test]
    fn lines_in_form() {
        for line in IN_FORM {
            assert!(call_of(line.as_bytes()).is_some(), "{line}");
        }
    }

    #[test]
    fn lines_out_of_form() {
        for line in OUT_OF_FORM {
            assert!(call_of(line.as_bytes()).is_none(), "{line}");
        }
    }

    #[test]
    fn files() {
        let cases: [(&str, &str); 9] = [
            ("", "status=8\n"),
            ("\n", "line=1\n"),
            ("take=0", "status=10\n"),
            ("take=0\n", "status=10\n"),
            ("take=0\n\n", "line=2\n"),
            ("take=0\ntake=0\n", "line=2\n"),
            ("tolerance=1\ntake=0\n", "line=2\n"),
            ("weight=24,0\nweight=0,1001\n", "refused=1,2\nrefused=2,2\nstatus=8\n"),
            ("weight=24,0\nx\nweight=24,0\n", "refused=1,2\nline=2\n"),
        ];
        for (input, output) in cases {
            assert_eq!(String::from_utf8_lossy(&output_of(input.as_bytes())), output, "{input:?}");
        }
    }
}
