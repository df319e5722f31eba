//! Random period files, in form and out of it.

use crate::books::random_calls_in_order;
use crate::call::Call;
use crate::named::named;
use crate::random::Random;

named! {
    /// What is done to a file that was in form.
    FileDamage {
        None => "nothing damaged",
        NoLastLineEnd => "the last line's end missing",
        EightyBytes => "a line of 80 bytes, in form",
        EightyOneBytes => "a line of 81 bytes, else in form",
        VeryLongLine => "a line of thousands of bytes",
        EmptyLine => "an empty line",
        EmptyLastLine => "an empty line at the end",
        CarriageReturn => "a carriage return before the line feed",
        Space => "a space",
        Plus => "a plus before a number",
        Nul => "a NUL",
        HighByte => "a byte above 127",
        Letter => "a letter in a number",
        UnknownKey => "an unknown key",
        CapitalKey => "a key in capitals",
        NoEquals => "no equals sign",
        TwoEquals => "two equals signs",
        FieldMissing => "a field missing",
        FieldMore => "a field more",
        FieldEmpty => "an empty field",
        MeterEightFields => "a meter line of eight fields",
        MeterNineFields => "a meter line of nine fields",
        MeterElevenFields => "a meter line of eleven fields",
        LeadingZero => "a leading zero",
        EighteenDigits => "a number of 18 digits, in form",
        NineteenDigits => "a number of 19 digits",
        MinusZero => "a take of -0",
        MinusTwice => "two minuses",
        MinusElsewhere => "a minus before another number than take",
        SecondTake => "a second take",
        SecondTolerance => "a second tolerance",
        KindOutOfOrder => "a kind out of order",
        ByteChanged => "a random byte changed",
        ByteDropped => "a random byte dropped",
        CutShort => "the end cut off at a random byte",
    }
}

/// A file as its lines, so that it can be cut down line by line.
#[derive(Clone, Debug)]
pub struct PeriodFile {
    pub lines: Vec<Vec<u8>>,
    pub last_line_ends: bool,
}

impl PeriodFile {
    pub fn bytes(&self) -> Vec<u8> {
        let mut bytes = self.lines.join(&b'\n');
        if self.last_line_ends && !self.lines.is_empty() {
            bytes.push(b'\n');
        }
        bytes
    }

    fn of_bytes(bytes: &[u8]) -> PeriodFile {
        let lines = super::format::lines_of(bytes);
        PeriodFile { lines: lines.into_iter().map(<[u8]>::to_vec).collect(), last_line_ends: bytes.ends_with(b"\n") }
    }
}

/// At most 18 digits, so that the number is in form.
fn in_form(value: i128) -> i128 {
    value % 1_000_000_000_000_000_000
}

fn line_of(call: &Call) -> String {
    let n = |value: u64| in_form(value.into()).to_string();
    let joined = |values: &[u64]| values.iter().map(|v| n(*v)).collect::<Vec<_>>().join(",");
    match *call {
        Call::Take { wh } => format!("take={}", in_form(wh.into())),
        Call::Tolerance { g } => format!("tolerance={}", n(g)),
        Call::Weight { class, thousandths } => format!("weight={}", joined(&[class, thousandths])),
        Call::Shape { category, wh } => format!("shape={}", joined(&[category, wh])),
        Call::Register { mpan, registration: r } => {
            let additional = match r.flag {
                0 => String::from("-"),
                _ => n(r.additional),
            };
            format!(
                "meter={},{additional},{}",
                joined(&[mpan, r.segment, r.direction, r.status, r.base]),
                joined(&[r.category, r.llf, r.network, r.tariff])
            )
        }
        Call::Reading { mpan, reading: r } => {
            format!("reading={}", joined(&[mpan, r.issue, r.quality, r.consumption]))
        }
        Call::Unknown { kind } => format!("{kind}=0"),
    }
}

/// A file in form, of so many meters.
fn file_in_form(meters: usize, random: &mut Random) -> PeriodFile {
    let calls = random_calls_in_order(meters, random);
    PeriodFile { lines: calls.iter().map(|call| line_of(call).into_bytes()).collect(), last_line_ends: true }
}

/// The random file of this number and what was done to it: every other one is damaged, in each way in turn. Now and then there
/// are more meters than `settle` has room for.
pub fn random_file(index: u64, random: &mut Random) -> (PeriodFile, FileDamage) {
    let meters = match random.index(60) {
        0 => random.between(500, 600) as usize,
        _ => random.index(24),
    };
    let mut file = file_in_form(meters, random);
    let damage = match index % 2 {
        0 => FileDamage::None,
        _ => FileDamage::ALL[index as usize / 2 % FileDamage::ALL.len()],
    };
    damage_file(&mut file, damage, random);
    (file, damage)
}

fn damage_file(file: &mut PeriodFile, damage: FileDamage, random: &mut Random) {
    match damage {
        FileDamage::None => {}
        FileDamage::NoLastLineEnd => file.last_line_ends = false,
        FileDamage::EightyBytes => file.lines.push(long_reading(80)),
        FileDamage::EightyOneBytes => file.lines.push(long_reading(81)),
        FileDamage::EmptyLastLine => file.lines.push(Vec::new()),
        FileDamage::MeterEightFields => insert_meter(&mut file.lines, 8),
        FileDamage::MeterNineFields => insert_meter(&mut file.lines, 9),
        FileDamage::MeterElevenFields => insert_meter(&mut file.lines, 11),
        FileDamage::ByteChanged | FileDamage::ByteDropped | FileDamage::CutShort => {
            damage_bytes(file, damage, random);
        }
        _ => {
            let place = random.index(file.lines.len() + 1);
            damage_lines(&mut file.lines, place, damage, random);
        }
    }
}

/// Puts in a meter line of so many fields, where the first reading stands, so that nothing but their number is out of form.
fn insert_meter(lines: &mut Vec<Vec<u8>>, fields: usize) {
    let all = ["1200000000002", "1", "0", "2", "0", "-", "0", "1000", "63", "1023", "0"];
    let place = lines.iter().position(|line| line.starts_with(b"reading=")).unwrap_or(lines.len());
    lines.insert(place, format!("meter={}", all[..fields].join(",")).into_bytes());
}

/// A reading line of so many bytes, each number of at most 18 digits.
fn long_reading(bytes: usize) -> Vec<u8> {
    let start = "reading=123456789012345678,123456789012345678,123456789012345678,";
    let mut line = start.as_bytes().to_vec();
    line.resize(bytes, b'7');
    line
}

fn damage_bytes(file: &mut PeriodFile, damage: FileDamage, random: &mut Random) {
    let mut bytes = file.bytes();
    if bytes.is_empty() {
        return;
    }
    let place = random.index(bytes.len());
    match damage {
        FileDamage::ByteChanged => bytes[place] = random.word() as u8,
        FileDamage::ByteDropped => {
            bytes.remove(place);
        }
        _ => bytes.truncate(place),
    }
    *file = PeriodFile::of_bytes(&bytes);
}

/// Damages that put a line in, or bend the one that stands at a place.
fn damage_lines(lines: &mut Vec<Vec<u8>>, place: usize, damage: FileDamage, random: &mut Random) {
    let inserted: Option<Vec<u8>> = match damage {
        FileDamage::EmptyLine => Some(Vec::new()),
        FileDamage::VeryLongLine => Some(vec![b'7'; random.between(82, 20_000) as usize]),
        FileDamage::UnknownKey => {
            let keys = ["=1", "mete=1", "meters=1", "takes=1", "take =1", "volume=0,1"];
            Some(random.pick(&keys).as_bytes().to_vec())
        }
        FileDamage::SecondTake => Some(b"take=5".to_vec()),
        FileDamage::SecondTolerance => Some(b"tolerance=5".to_vec()),
        FileDamage::MinusZero => Some(b"take=-0".to_vec()),
        _ => None,
    };
    match (inserted, damage) {
        (Some(line), FileDamage::SecondTake | FileDamage::SecondTolerance) => {
            let before = lines.iter().position(|other| other.starts_with(&line[..5]));
            let place = before.map_or(0, |before| before + 1);
            lines.splice(place..place, [line.clone(), line]);
        }
        (Some(line), FileDamage::MinusZero) => lines.insert(0, line),
        (Some(line), _) => lines.insert(place, line),
        (None, FileDamage::KindOutOfOrder) => {
            let place = random.between(0, lines.len() as u64) as usize;
            lines.insert(place, b"reading=1200000000002,1,0,100".to_vec());
            lines.insert(place + 1, b"weight=8,1000".to_vec());
        }
        (None, _) => bend_line(lines, place, damage, random),
    }
}

fn bend_line(lines: &mut Vec<Vec<u8>>, place: usize, damage: FileDamage, random: &mut Random) {
    if lines.is_empty() {
        lines.push(b"reading=1200000000002,1,0,100".to_vec());
    }
    let place = place % lines.len();
    let text = String::from_utf8_lossy(&lines[place]).into_owned();
    lines[place] = bent(&text, damage, random);
}

/// Puts something in before a random field of a line.
fn before_a_field(text: &str, put: &str, random: &mut Random) -> String {
    let starts: Vec<usize> =
        text.char_indices().filter(|(_, c)| *c == '=' || *c == ',').map(|(index, _)| index + 1).collect();
    let mut bent = String::from(text);
    bent.insert_str(*random.pick(&starts), put);
    bent
}

fn bent(text: &str, damage: FileDamage, random: &mut Random) -> Vec<u8> {
    let anywhere = random.index(text.len() + 1);
    let with_byte = |byte: u8| {
        let mut bytes = text.as_bytes().to_vec();
        bytes.insert(anywhere, byte);
        bytes
    };
    let (key, value) = text.split_once('=').unwrap_or((text, "0"));
    let bent = match damage {
        FileDamage::Space => return with_byte(b' '),
        FileDamage::Nul => return with_byte(0),
        FileDamage::HighByte => return with_byte(random.between(128, 255) as u8),
        FileDamage::CarriageReturn => format!("{text}\r"),
        FileDamage::Plus => before_a_field(text, "+", random),
        FileDamage::Letter => before_a_field(text, "x", random),
        FileDamage::CapitalKey => format!("{}={value}", key.to_uppercase()),
        FileDamage::NoEquals => format!("{key}{value}"),
        FileDamage::TwoEquals => format!("{key}=={value}"),
        FileDamage::FieldMissing => match text.rsplit_once(',') {
            Some((fields, _)) => String::from(fields),
            None => format!("{key}="),
        },
        FileDamage::FieldMore => before_a_field(text, "1,", random),
        FileDamage::FieldEmpty => before_a_field(text, ",", random),
        FileDamage::LeadingZero => before_a_field(text, "0", random),
        FileDamage::MinusTwice => format!("{key}=--{value}"),
        FileDamage::MinusElsewhere => before_a_field(text, "-", random),
        FileDamage::EighteenDigits => with_last_field(text, "999999999999999999"),
        _ => with_last_field(text, "1000000000000000000"),
    };
    bent.into_bytes()
}

fn with_last_field(text: &str, field: &str) -> String {
    let start = text.rfind([',', '=']).map_or(0, |index| index + 1);
    format!("{}{field}", &text[..start])
}
