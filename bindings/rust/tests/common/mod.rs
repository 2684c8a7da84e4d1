//! What several of the tests need.
#![allow(dead_code, reason = "each test program uses a part")]

use hayro_ccitt::{
    DecodeError, DecodeSettings, Decoder, EncodeSettings, EncodingMode, RowReader, encode_bitmap,
};
use std::fs;

/// The repository's folder.
pub const ROOT: &str = "../..";

/// A case: the words MODE COLUMNS ROWS FLAGS, and the data.
pub struct Case {
    pub words: String,
    pub data: Vec<u8>,
}

impl Case {
    pub fn is_low_first(&self) -> bool {
        self.words.ends_with('r')
    }

    pub fn settings(&self) -> DecodeSettings {
        settings_of(&self.words)
    }

    pub fn line(&self) -> String {
        let digits: String = self.data.iter().map(|byte| format!("{byte:02x}")).collect();
        let digits = if digits.is_empty() { "-" } else { &digits };
        format!("{} {digits}\n", self.words)
    }
}

/// The flags with `r`, which says that the lowest bit comes first, as the last letter.
fn with_r_last(words: &str) -> String {
    if words.contains('r') {
        words.replace('r', "") + "r"
    } else {
        words.to_string()
    }
}

/// The data whole, with a byte inverted at three places, and cut.
fn damaged(data: &[u8]) -> Vec<Vec<u8>> {
    let mut all = vec![data.to_vec(), data[..data.len() / 2].to_vec()];
    for part in 1..4 {
        let mut other = data.to_vec();
        other[data.len() * part / 4] ^= 0xFF;
        all.push(other);
    }
    all
}

/// The strips of the corpus with each of their settings, whole and damaged.
pub fn strips() -> Vec<Case> {
    let manifest = fs::read_to_string(format!("{ROOT}/corpus/manifest.tsv")).unwrap();
    let mut cases = Vec::new();
    for line in manifest.lines().filter(|line| !line.starts_with('#')) {
        let fields: Vec<&str> = line.split('\t').collect();
        let data = fs::read(format!("{ROOT}/corpus/{}", fields[1])).unwrap();
        // Of the page, whose rows are many, the first settings.
        let most = if fields[3] == "1240" { 1 } else { 20 };
        for setting in fields[5].split(',').take(most) {
            let (limit, flags) = setting.split_once(':').unwrap();
            let words = with_r_last(&format!("{} {} {limit} {flags}", fields[2], fields[3]));
            cases.extend(damaged(&data).into_iter().map(|data| Case {
                words: words.clone(),
                data,
            }));
        }
    }
    cases
}

/// The stored cases whose data is written without repetitions, and that aren't too wide.
pub fn stored_cases() -> Vec<Case> {
    let stored = fs::read_to_string(format!("{ROOT}/corpus/cases.tsv")).unwrap();
    let lines = stored.lines().filter(|line| !line.starts_with('#'));
    let cases = lines.filter_map(|line| {
        let [words, digits, _] = line.split('\t').collect::<Vec<_>>()[..] else {
            panic!("{line}")
        };
        let wide = words.split(' ').nth(1)?.parse::<u32>().ok()? > 1 << 16;
        let digits = if digits == "-" { "" } else { digits };
        if wide || digits.contains(['*', '+']) {
            return None;
        }
        let bytes = (0..digits.len()).step_by(2);
        let data = bytes.map(|at| u8::from_str_radix(&digits[at..at + 2], 16).unwrap());
        Some(Case {
            words: with_r_last(words),
            data: data.collect(),
        })
    });
    cases.collect()
}

/// Data longer than 65,536 bytes: 1200 rows, half of which have pixels that alternate, in each encoding, with a row limit and without.
pub fn long_data() -> Vec<Case> {
    let encodings = [
        ("g4", EncodingMode::Group4),
        ("1d", EncodingMode::Group3_1D),
        ("2d", EncodingMode::Group3_2D),
    ];
    encodings
        .into_iter()
        .flat_map(|(mode, encoding)| {
            let settings = EncodeSettings {
                columns: 1000,
                encoding,
                k: 2,
                end_of_line: encoding != EncodingMode::Group4,
                eols_end_at_bytes: false,
                rows_are_byte_aligned: false,
                end_of_block: true,
                low_first: false,
                shortest: false,
            };
            let row = |byte: u8| vec![byte; 125];
            let bitmap = [row(0xAA), row(0), row(0xCC), row(0xFF)]
                .concat()
                .repeat(300);
            let data = encode_bitmap(&bitmap, settings).unwrap();
            assert!(data.len() > 1 << 16);
            let flags = if mode == "g4" { "b" } else { "bl" };
            [0, 1200].map(|limit| Case {
                words: format!("{mode} 1000 {limit} {flags}"),
                data: data.clone(),
            })
        })
        .collect()
}

/// The settings that the words MODE COLUMNS ROWS FLAGS mean.
pub fn settings_of(words: &str) -> DecodeSettings {
    let words: Vec<&str> = words.split(' ').collect();
    DecodeSettings {
        columns: words[1].parse().unwrap(),
        rows: words[2].parse().unwrap(),
        end_of_block: words[3].contains('b'),
        end_of_line: words[3].contains('l'),
        rows_are_byte_aligned: words[3].contains('a'),
        encoding: match words[0] {
            "g4" => EncodingMode::Group4,
            "1d" => EncodingMode::Group3_1D,
            _ => EncodingMode::Group3_2D,
        },
        strict: words[3].contains('s'),
    }
}

/// Panics at its second row.
pub struct Panicking(pub usize);

impl Decoder for Panicking {
    fn push_row(&mut self, _changes: &[u32]) {
        self.0 += 1;
        assert!(self.0 < 2, "the second row");
    }
}

/// What is reported of the rows that were read.
#[derive(Clone, Debug, PartialEq)]
pub struct Told {
    pub rows: u64,
    pub line_start: usize,
    pub bytes_read: usize,
    pub repaired: [u64; 3],
    pub missed_eol: Option<usize>,
    pub is_cut: bool,
    pub damage: Option<DecodeError>,
}

/// What a reader of rows reports.
macro_rules! told {
    ($rows:expr) => {
        crate::common::Told {
            rows: $rows.rows_read(),
            line_start: $rows.line_start(),
            bytes_read: $rows.bytes_read(),
            repaired: [$rows.damaged_rows(), $rows.missed_eols(), $rows.cut_rows()],
            missed_eol: $rows.missed_eol(),
            is_cut: $rows.is_cut(),
            damage: $rows.damage(),
        }
    };
}

/// The rows of some data, each with what is reported of it, and how they end.
#[derive(Debug, PartialEq)]
pub struct Reading<T> {
    pub rows: Vec<(Vec<T>, Told)>,
    pub end: (Result<(), DecodeError>, Told),
}

impl Case {
    fn reader(&self) -> RowReader<'_> {
        if self.is_low_first() {
            RowReader::new_low_first(&self.data, self.settings())
        } else {
            RowReader::new(&self.data, self.settings())
        }
    }

    /// The rows by a `RowReader`.
    pub fn listed(&self) -> Reading<u32> {
        let (mut reader, mut rows) = (self.reader(), Vec::new());
        loop {
            let row = reader.next_row().map(|row| row.map(<[u32]>::to_vec));
            match row {
                Ok(Some(row)) => rows.push((row, told!(reader))),
                end => {
                    let end = (end.map(|_| ()), told!(reader));
                    return Reading { rows, end };
                }
            }
        }
    }

    /// The rows packed, by a `RowReader`.
    pub fn packed(&self) -> Reading<u8> {
        let (mut reader, mut rows) = (self.reader(), Vec::new());
        loop {
            let row = reader.next_packed().map(|row| row.map(<[u8]>::to_vec));
            match row {
                Ok(Some(row)) => rows.push((row, told!(reader))),
                end => {
                    let end = (end.map(|_| ()), told!(reader));
                    return Reading { rows, end };
                }
            }
        }
    }

    /// The same image, with the bits of each byte in the other order.
    pub fn turned(&self) -> Case {
        let words = match self.words.strip_suffix('r') {
            Some(words) => words.to_string(),
            None => format!("{}r", self.words),
        };
        Case {
            words,
            data: self.data.iter().map(|byte| byte.reverse_bits()).collect(),
        }
    }
}

/// Numbers that look random, the same in each run.
pub struct Random(pub u64);

impl Random {
    /// A number below this one.
    pub fn below(&mut self, most: usize) -> usize {
        self.0 ^= self.0 << 13;
        self.0 ^= self.0 >> 7;
        self.0 ^= self.0 << 17;
        (self.0 >> 11) as usize % most
    }
}

/// Data that looks random, of each length up to 40, in each encoding and with each flag.
pub fn random_data() -> Vec<Case> {
    let mut random = Random(0x9E37_79B9_7F4A_7C15);
    let letters = ["b", "l", "a", "s", "r"];
    let mut cases = Vec::new();
    for (at, mode) in ["g4", "1d", "2d"].repeat(32 * 40).iter().enumerate() {
        let flags: String = letters
            .iter()
            .enumerate()
            .filter(|(bit, _)| at >> bit & 1 != 0)
            .map(|(_, letter)| *letter)
            .collect();
        let (columns, rows) = ([1, 8, 33, 1728][random.below(4)], random.below(4));
        // Mostly zeros, so that there are EOLs, fill and white rows.
        let bytes = [0x00, 0x01, 0x10, 0x80, 0x4D, 0x35];
        let data = (0..random.below(40)).map(|_| match random.below(8) {
            7 => random.below(256) as u8,
            at => bytes[at % bytes.len()],
        });
        cases.push(Case {
            data: data.collect(),
            words: format!("{mode} {columns} {rows} -{flags}"),
        });
    }
    cases
}

/// The memory of this process in kilobytes.
pub fn resident() -> usize {
    let status = fs::read_to_string("/proc/self/status").unwrap();
    let line = status
        .lines()
        .find(|line| line.starts_with("VmRSS:"))
        .unwrap();
    line.split_whitespace().nth(1).unwrap().parse().unwrap()
}
