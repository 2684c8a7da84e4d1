//! Every call on the strips of the corpus with each of their settings, whole, damaged and cut, and on its cases: the rows, the result, the
//! counts, the place of a fault and the numbers of each row are those of the C calls, as `checks/c/answers.c` prints them.

mod common;

use common::{Case, Panicking, ROOT, long_data, stored_cases, strips};
use hayro_ccitt::{
    DecodeError, DecodeSettings, Decoder, DecoderContext, EncodingMode, RowReader, decode,
    decode_low_first, decode_packed, decode_packed_low_first,
};
use std::collections::BTreeSet;
use std::fmt::Write as _;
use std::fs;
use std::panic::{AssertUnwindSafe, catch_unwind};
use std::path::Path;
use std::process::{Command, Stdio};

/// The answers of the C program, one for each case.
fn in_c(cases: &[Case]) -> Vec<String> {
    let folder = env!("CARGO_TARGET_TMPDIR");
    let (program, asked) = (format!("{folder}/answers"), format!("{folder}/asked"));
    let library = format!("{ROOT}/crates/hayro_ccitt_c/out/libhayro_ccitt_c.a");
    let sources = [
        format!("{ROOT}/checks/c/answers.c"),
        format!("{ROOT}/c/heap.c"),
        library,
    ];
    let compiler = std::env::var("CC").unwrap_or("cc".to_string());
    let flags = ["-O2", "-I", &format!("{ROOT}/c"), "-o", &program];
    let compiled = Command::new(compiler).args(flags).args(&sources).status();
    assert!(compiled.unwrap().success());
    let lines: String = cases.iter().map(Case::line).collect();
    fs::write(&asked, lines).unwrap();
    let input = Stdio::from(fs::File::open(Path::new(&asked)).unwrap());
    let done = Command::new(program).stdin(input).output().unwrap();
    assert!(done.status.success(), "{}", done.status);
    let text = String::from_utf8(done.stdout).unwrap();
    text.split("packed ")
        .skip(1)
        .map(|answer| format!("packed {answer}"))
        .collect()
}

fn adler32(bytes: impl IntoIterator<Item = u8>) -> u32 {
    let (sum, sums) = bytes.into_iter().fold((1, 0), |(sum, sums), byte| {
        let sum = (sum + u32::from(byte)) % 65521;
        (sum, (sums + sum) % 65521)
    });
    sums << 16 | sum
}

fn bytes_of(numbers: &[u32]) -> Vec<u8> {
    numbers
        .iter()
        .flat_map(|number| number.to_ne_bytes())
        .collect()
}

fn status_of(error: Option<DecodeError>) -> u32 {
    match error {
        None => 0,
        Some(DecodeError::UnexpectedEof) => 1,
        Some(DecodeError::InvalidCode) => 2,
        Some(DecodeError::Overflow) => 3,
    }
}

/// The lists of changes, each after its length, and their number.
#[derive(Default)]
struct Lists(Vec<u32>, usize);

impl Decoder for Lists {
    fn push_row(&mut self, changes: &[u32]) {
        self.0.push(changes.len() as u32);
        self.0.extend(changes);
        self.1 += 1;
    }
}

/// A line for a whole decoding.
fn tell(
    call: &str,
    result: Result<usize, DecodeError>,
    rows: usize,
    told: &DecoderContext,
    sum: u32,
) -> String {
    assert_eq!(told.fault_start().is_some(), result.is_err());
    format!(
        "{call} {} {rows} {} {} {} {} {} {sum}\n",
        status_of(result.err()),
        result.unwrap_or(0),
        told.damaged_rows(),
        told.missed_eols(),
        told.cut_rows(),
        told.fault_start().unwrap_or(0),
    )
}

fn whole(case: &Case, context: &mut DecoderContext) -> String {
    let packed = if case.is_low_first() {
        decode_packed_low_first(&case.data, context)
    } else {
        decode_packed(&case.data, context)
    };
    let sum = adler32(packed.bytes);
    let mut text = tell("packed", packed.result, packed.rows, context, sum);
    let mut lists = Lists::default();
    let result = if case.is_low_first() {
        decode_low_first(&case.data, &mut lists, context)
    } else {
        decode(&case.data, &mut lists, context)
    };
    let sum = adler32(bytes_of(&lists.0));
    text += &tell("changes", result, lists.1, context, sum);
    text
}

fn by_rows(case: &Case) -> String {
    let open = || {
        if case.is_low_first() {
            RowReader::new_low_first(&case.data, case.settings())
        } else {
            RowReader::new(&case.data, case.settings())
        }
    };
    let (mut lists, mut bitmaps) = (open(), open());
    let mut text = String::new();
    let status = loop {
        let changes = lists
            .next_row()
            .map(|row| row.map(|row| adler32(bytes_of(row))));
        let packed = bitmaps
            .next_packed()
            .map(|row| row.map(|row| adler32(row.iter().copied())));
        assert_eq!(lists.line_start(), bitmaps.line_start());
        match (changes, packed) {
            (Ok(Some(changes)), Ok(Some(packed))) => writeln!(
                text,
                "row {} {} {} {} {} {} {} {changes} {packed}",
                lists.line_start(),
                lists.bytes_read(),
                lists.damaged_rows(),
                lists.missed_eols(),
                lists.cut_rows(),
                status_of(lists.damage()),
                u32::from(lists.is_cut()),
            )
            .unwrap(),
            (Ok(None), Ok(None)) => break 7,
            (Err(error), Err(other)) if error == other => break status_of(Some(error)),
            (one, other) => panic!("{one:?} {other:?}"),
        }
    };
    text + &format!(
        "end {status} {} {} {} {} {} {}\n",
        lists.rows_read(),
        lists.line_start(),
        lists.bytes_read(),
        lists.damaged_rows(),
        lists.missed_eols(),
        lists.cut_rows(),
    )
}

#[test]
fn every_call_answers_as_in_c() {
    let cases: Vec<Case> = [strips(), stored_cases(), long_data()]
        .into_iter()
        .flatten()
        .collect();
    let answers = in_c(&cases);
    assert_eq!(cases.len(), answers.len());
    let (mut results, mut kinds) = (BTreeSet::new(), BTreeSet::new());
    for (case, answer) in cases.iter().zip(&answers) {
        let mut context = DecoderContext::new(case.settings());
        let text = whole(case, &mut context) + &by_rows(case);
        assert_eq!(&text, answer, "{}", case.line());
        for line in text.lines() {
            let words: Vec<&str> = line.split(' ').collect();
            match words[0] {
                "row" => kinds.insert(words[6].to_string()),
                kind => results.insert(format!("{kind} {}", words[1])),
            };
        }
    }
    // Each result, and each fault of a row that was repaired, occurs.
    assert_eq!(kinds.len(), 4, "{kinds:?}");
    assert_eq!(results.len(), 3 * 4, "{results:?}");
    println!("{} cases", cases.len());
}

/// What a context tells of the image before isn't there after a sink has panicked.
#[test]
fn no_counts_are_left_where_a_sink_panics() {
    let damaged = [0x00, 0x19, 0x80, 0x0C, 0x40, 0x00, 0x33];
    let missed = [0x00, 0x19, 0xF8, 0x00, 0xCC];
    let mut context = DecoderContext::new(DecodeSettings {
        columns: 8,
        rows: 0,
        end_of_block: false,
        end_of_line: true,
        rows_are_byte_aligned: false,
        encoding: EncodingMode::Group3_1D,
        strict: false,
    });
    let hook = std::panic::take_hook();
    std::panic::set_hook(Box::new(|_| {}));
    let told: Vec<_> = [&damaged[..], &missed[..]]
        .iter()
        .map(|data| {
            let before = decode(data, &mut Lists::default(), &mut context);
            let counts = (context.damaged_rows(), context.missed_eols());
            let caught = catch_unwind(AssertUnwindSafe(|| {
                decode(&damaged, &mut Panicking(0), &mut context)
            }));
            let left = (
                context.damaged_rows(),
                context.missed_eols(),
                context.fault_start(),
            );
            (before.is_ok(), counts, caught.is_err(), left)
        })
        .collect();
    std::panic::set_hook(hook);
    assert_eq!(told[0], (true, (1, 0), true, (0, 0, None)));
    assert_eq!(told[1], (false, (0, 2), true, (0, 0, None)));
}
