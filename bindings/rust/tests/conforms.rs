//! Each case of `corpus/conforms.tsv`, in both orders of bits: what a check finds in each grade.

mod common;

use common::{ROOT, settings_of};
use hayro_ccitt::conforms::{Grade, Rule, Violation, first_violation, first_violation_low_first};
use hayro_ccitt::{DecodeSettings, EncodeSettings, EncodingMode, encode_bitmap};
use std::fs;

const NAMES: [(&str, Rule); 13] = [
    ("MODE", Rule::Mode),
    ("RUN", Rule::Run),
    ("ROW_END", Rule::RowEnd),
    ("NO_PIXELS", Rule::NoPixels),
    ("COLUMNS", Rule::Columns),
    ("EOL", Rule::Eol),
    ("TAG", Rule::Tag),
    ("PADDING", Rule::Padding),
    ("PASS_TO_END", Rule::PassToEnd),
    ("PROCEDURE", Rule::Procedure),
    ("KIND", Rule::Kind),
    ("FILL", Rule::Fill),
    ("END", Rule::End),
];

fn bytes_of(digits: &str) -> Vec<u8> {
    (0..digits.trim_matches('-').len())
        .step_by(2)
        .map(|place| u8::from_str_radix(&digits[place..place + 2], 16).unwrap())
        .collect()
}

fn of_repository(name: &str) -> String {
    fs::read_to_string(format!("{ROOT}/{name}")).unwrap()
}

/// Compares what is found with `ok`, or a place and a rule.
fn compare(found: Option<Violation>, expected: &str, case: &str) {
    match expected.split_once(' ') {
        Some((place, name)) => {
            let rule = NAMES.iter().find(|it| it.0 == name).unwrap().1;
            let place = place.parse().unwrap();
            assert_eq!(found, Some(Violation { place, rule }), "{case}");
        }
        None => assert_eq!((found, expected), (None, "ok"), "{case}"),
    }
}

#[test]
fn each_case_has_its_violation_in_each_grade() {
    let table = of_repository("corpus/conforms.tsv");
    let mut cases = 0;
    for line in table.lines().filter(|line| !line.starts_with('#')) {
        let fields: Vec<&str> = line.split('\t').collect();
        let (settings, low_first) = (settings_of(fields[0]), fields[0].ends_with('r'));
        let data = bytes_of(fields[1]);
        let turned: Vec<u8> = data.iter().map(|byte| byte.reverse_bits()).collect();
        let k = fields[2].parse().unwrap();
        let grades = [
            Grade::Readable,
            Grade::Procedure(Some(k).filter(|k| *k > 0)),
        ];
        let (high, low) = if low_first {
            (turned, data)
        } else {
            (data, turned)
        };
        for (grade, expected) in grades.into_iter().zip(&fields[3..]) {
            compare(
                first_violation(&high, settings, grade).unwrap(),
                expected,
                line,
            );
            let found = first_violation_low_first(&low, settings, grade).unwrap();
            compare(found, expected, line);
            let strict = DecodeSettings {
                strict: true,
                ..settings
            };
            assert_eq!(first_violation(&high, strict, grade), Ok(found), "{line}");
        }
        cases += 1;
    }
    assert!(cases > 30);
}

#[test]
fn texts_are_those_of_the_header() {
    let header = of_repository("c/hayro_ccitt.h");
    let (_, table) = header.split_once("#define HAYRO_CCITT_RULE_TEXTS").unwrap();
    let texts: Vec<&str> = table.split('"').skip(1).step_by(2).collect();
    for (index, (name, rule)) in NAMES.iter().enumerate() {
        let number = index + 1;
        assert!(header.contains(&format!("HAYRO_CCITT_RULE_{name} = {number}")));
        assert_eq!(rule.to_string(), texts[number]);
    }
    let found = Violation {
        place: 3,
        rule: Rule::Run,
    };
    assert_eq!(found.to_string(), "bit 3: a run is expected (T.4, 4.1.1)");
}

/// Rows with two runs each, encoded with a K, conform with it and each greater one, and a K of 0 means what 1 does.
#[test]
fn k_limits_the_two_dimensional_lines() {
    let settings = EncodeSettings {
        columns: 8,
        encoding: EncodingMode::Group3_2D,
        k: 3,
        end_of_line: true,
        eols_end_at_bytes: false,
        rows_are_byte_aligned: false,
        end_of_block: true,
        low_first: false,
        shortest: false,
    };
    let data = encode_bitmap(&[0x18, 0x24, 0x42, 0x81], settings).unwrap();
    let to_read = DecodeSettings {
        columns: 8,
        rows: 0,
        end_of_block: true,
        end_of_line: true,
        rows_are_byte_aligned: false,
        encoding: EncodingMode::Group3_2D,
        strict: false,
    };
    let found = |k| first_violation(&data, to_read, Grade::Procedure(k)).unwrap();
    assert!(found(Some(0)).is_some() && found(Some(0)) == found(Some(1)));
    assert!(found(Some(2)).is_some());
    assert!(found(Some(3)).is_none() && found(Some(u32::MAX)).is_none() && found(None).is_none());
}
