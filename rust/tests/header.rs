//! The lengths, the number for a wrong line and the version that include/vizhuthamen.h states are those of the crate.
use vizhuthamen::{
    BOOKING_LINE, CANCELLING_LINE, MAX_DEAL, MAX_RAW, MAX_RECORD, MAX_STREAM, MAX_TABLE, ROW, ROWS, STREAM_STATE,
    WRONG_LINE,
};

/// What the header defines a name of no arguments as, without the comment after it.
fn defined(name: &str) -> &'static str {
    let header = include_str!("../../include/vizhuthamen.h");
    let start = format!("#define {name} ");
    let line = header.lines().find_map(|line| line.strip_prefix(&start)).expect("the header defines the name");
    line.split("/*").next().unwrap_or_default().trim()
}

#[test]
fn lengths() {
    let lengths = [
        ("VZ_MAX_DEAL", MAX_DEAL as u64),
        ("VZ_MAX_TABLE", MAX_TABLE as u64),
        ("VZ_MAX_RECORD", MAX_RECORD as u64),
        ("VZ_MAX_RAW", MAX_RAW),
        ("VZ_MAX_STREAM", MAX_STREAM),
        ("VZ_STREAM_STATE", STREAM_STATE as u64),
        ("VZ_BOOKING_LINE", BOOKING_LINE as u64),
        ("VZ_CANCELLING_LINE", CANCELLING_LINE as u64),
        ("VZ_ROW", ROW as u64),
        ("VZ_ROWS", ROWS as u64),
        ("VZ_WRONG_LINE", u64::from(WRONG_LINE)),
    ];
    let number = |text: &str| text.trim_start_matches("UINT64_C(").trim_end_matches(')').parse::<u64>();
    for (name, length) in lengths {
        assert_eq!(number(defined(name)), Ok(length), "{name}");
    }
}

#[test]
fn version() {
    assert_eq!(defined("VZ_VERSION"), format!("{:?}", env!("CARGO_PKG_VERSION")));
    let parts = env!("CARGO_PKG_VERSION").split('.').map(|part| part.parse::<u32>().unwrap());
    let number = parts.fold(0, |number, part| 100 * number + part);
    assert_eq!(defined("VZ_VERSION_NUMBER"), number.to_string());
}
