//! The answers laid out for C: the lengths that the header defines, and words worked out by hand.

use twin::builder::{named_product, Description, EntryDescription, Number};
use twin::words::{self, Answer, Call};
use twin::Time;

/// The header that the words are laid out by.
const HEADER: &str = include_str!("../../../include/ambrothel.h");

/// A number that the header defines.
fn defined(name: &str) -> usize {
    let start = format!("#define AMBROTHEL_{name} ");
    let value = HEADER.lines().find_map(|line| line.strip_prefix(&start));
    value.and_then(|value| value.parse().ok()).unwrap_or_else(|| panic!("the header has no {name}"))
}

#[test]
fn lengths_are_those_of_the_header() {
    for (name, length) in [
        ("VERDICT_WORDS", words::VERDICT_WORDS),
        ("PLACE_WORDS", words::PLACE_WORDS),
        ("PART_WORDS", words::PART_WORDS),
        ("FIELD_WORDS", words::FIELD_WORDS),
        ("POINT_WORDS", words::POINT_WORDS),
        ("POINT_DOUBLES", words::POINT_DOUBLES),
        ("HEADER_WORDS", words::HEADER_WORDS),
        ("HEADER_TEXTS", words::HEADER_TEXTS),
        ("DIRECTORY_WORDS", words::DIRECTORY_WORDS),
        ("DIRECTORY_TEXTS", words::DIRECTORY_TEXTS),
        ("EXTINCTION_WORDS", words::EXTINCTION_WORDS),
        ("EXTINCTION_DOUBLES", words::EXTINCTION_DOUBLES),
        ("EXTINCTION_PIXELS", twin::PIXELS),
        ("TIME_WORDS", words::TIME_WORDS),
        ("TIME_TEXT_WORDS", words::TIME_TEXT_WORDS),
        ("TIME_TEXT_LENGTH", twin::TIME_TEXT),
    ] {
        assert_eq!(defined(name), length, "{name}");
    }
}

#[test]
fn answers_have_their_lengths_accepted_or_refused() {
    let field = Call::FieldAt { entry: 0, record: 0, offset: 0, kind: 1 };
    let point = Call::PointAt { entry: 0, record: 0, offsets: [0, 4, 8] };
    for name in ["case-k", "case-l", "case-e", "case-j", "extinction"] {
        let product = named_product(name).unwrap();
        for (call, words, bytes, doubles) in [
            (Call::Judge, 3, 0, 0),
            (Call::OpenDirectory, 772, 11_520, 0),
            (Call::HeaderValues, 25, 289, 0),
            (Call::SphPlace, 5, 0, 0),
            (Call::RecordPlace { entry: 0, record: 0 }, 5, 0, 0),
            (field, 7, 0, 0),
            (point, 3, 0, 3),
            (Call::ExtinctionAt { record: 0, pixel: 0 }, 11, 0, 1),
        ] {
            let answer = call.answer(&product);
            let lengths = (answer.words.len(), answer.bytes.len(), answer.double_bits.len());
            assert_eq!(lengths, (words, bytes, doubles), "{name} {call:?}");
        }
    }
}

#[test]
fn a_kind_beyond_a_byte_is_unknown() {
    let product = named_product("case-b").unwrap();
    for kind in [256 + 5, (1 << 16) + 5, (1 << 32) + 5, usize::MAX] {
        let call = Call::FieldAt { entry: 0, record: 0, offset: 0, kind };
        assert_eq!(call.answer(&product).words, [19, 0, 0, 0, 0, 0, 0], "{kind}");
    }
}

/// Days and quality are negative: their words are of 64 bits. Beside a refusal there are zeros, the model's too.
#[test]
fn a_pixel_stands_in_eleven_words_and_a_double() {
    let product = named_product("extinction").unwrap();
    let asked = |record, pixel| Call::ExtinctionAt { record, pixel }.answer(&product);
    let (day, quality) = (u64::MAX, u64::MAX - 1);
    let answer = asked(0, 1167);
    let words = [0, 0, 0, day, 86_399, 999_999, quality, 0x3f80_0000, 1, 65_535, 1];
    assert_eq!((answer.words, answer.double_bits), (words.to_vec(), vec![2f64.to_bits()]));
    for (record, pixel, refusal) in [(2, 0, [18, 0, 1]), (1, 2336, [23, 2336, 1]), (1, 0, [24, 12, 1])]
    {
        let answer = asked(record, pixel);
        assert_eq!(answer.words, [&refusal[..], &[0; 8]].concat());
        assert_eq!(answer.double_bits, [0]);
    }
    assert_eq!(asked(1, usize::MAX).words[..3], [23, u64::MAX, 1]);
}

/// A time with its days' sign in 64 bits, a text that is not given, and one that is refused.
#[test]
fn a_text_is_answered_in_seven_words() {
    for (text, words) in [
        (&b"31-DEC-1999 23:59:59.999999"[..], [0, 0, 0, 1, u64::MAX, 86_399, 999_999]),
        (&[b' '; 27], [0, 0, 0, 2, 0, 0, 0]),
        (b"31-DEC-1999 23:59:60.999999", [30, 0, 128, 0, 0, 0, 0]),
        (&[], [30, 0, 128, 0, 0, 0, 0]),
    ] {
        assert_eq!(
            Call::TimeOfText.answer(text),
            Answer { words: words.to_vec(), ..Answer::default() }
        );
        let mut room = [7; 9];
        assert!((0..7).all(|length| !words::write_time_of_text(text, &mut room[..length])));
        assert_eq!(room, [7; 9]);
        assert!(words::write_time_of_text(text, &mut room));
        assert_eq!((&room[..7], &room[7..]), (&words[..], &[7; 2][..]));
    }
}

/// Beside a refusal the text is zeros.
#[test]
fn a_time_is_answered_in_three_words_and_27_bytes() {
    for (seconds, refusal, text) in
        [(86_399, [0, 0, 0], b"31-DEC-1999 23:59:59.000017"), (86_400, [31, 0, 128], &[0; 27])]
    {
        let time = Time { days: -1, seconds, microseconds: 17 };
        let answer = Call::TextOfTime { time }.answer(&[]);
        assert_eq!((&answer.words[..], &answer.bytes[..]), (&refusal[..], &text[..]));
        let (mut words, mut bytes) = ([7; 5], [7; 30]);
        let mut write =
            |word, byte| words::write_text_of_time(time, &mut words[..word], &mut bytes[..byte]);
        assert!((0..3).all(|length| !write(length, 30)) && (0..27).all(|length| !write(5, length)));
        assert_eq!((words, bytes), ([7; 5], [7; 30]));
        assert!(words::write_text_of_time(time, &mut words, &mut bytes));
        assert_eq!((&words[..3], &words[3..]), (&refusal[..], &[7; 2][..]));
        assert_eq!((&bytes[..27], &bytes[27..]), (&text[..], &[7; 3][..]));
    }
}

/// Every number of the main header is another one, so that no two can be exchanged.
#[test]
fn header_values_stand_in_the_order_of_their_lines() {
    let mut description = Description::new(vec![EntryDescription::spare()]);
    let free = [
        "CYCLE",
        "REL_ORBIT",
        "ABS_ORBIT",
        "DELTA_UT1",
        "X_POSITION",
        "Y_POSITION",
        "Z_POSITION",
        "X_VELOCITY",
        "Y_VELOCITY",
        "Z_VELOCITY",
        "SAT_BINARY_TIME",
        "CLOCK_STEP",
        "LEAP_SIGN",
    ];
    for (keyword, number) in free.into_iter().zip(5..) {
        description.set_number(keyword, Number::from(-number));
    }
    for (keyword, byte) in [("PROC_STAGE", b'N'), ("PHASE", b'3'), ("LEAP_ERR", b'1')] {
        description.set_single(keyword, byte);
    }
    for (keyword, text) in [("PRODUCT", "FIRST"), ("VECTOR_SOURCE", "FP"), ("LEAP_UTC", "LAST")] {
        description.set_text(keyword, text);
    }
    let answer = Call::HeaderValues.answer(&description.build());
    assert_eq!(answer.words[..5], [0, 0, 0, 78, 51]);
    let negative: Vec<i64> = answer.words[5..18].iter().map(|&word| -(word as i64)).collect();
    assert_eq!(negative, (5..18).collect::<Vec<i64>>());
    assert_eq!(answer.words[18..], [49, 48, 1527, 280, 1, 280, 0]);
    for (place, text) in [(0, "FIRST"), (233, "FP"), (262, "LAST")] {
        assert!(answer.bytes[place..].starts_with(text.as_bytes()), "{text}");
    }
}

#[test]
fn a_directory_stands_array_after_array() {
    let answer = Call::OpenDirectory.answer(&named_product("unequal-lengths").unwrap());
    assert_eq!(answer.words[..4], [0, 0, 0, 5]);
    assert_eq!(words::entry_words(&answer, 2), [u64::from(b'M'), 2661, 31, 5, u64::MAX, 1]);
    assert_eq!(answer.words[4..10], [65, 77, 77, 77, 77, 0]);
    assert_eq!(answer.words[132 + 3], 2647);
    assert_eq!(answer.words[516], 1387);
    assert_eq!(answer.words[644..650], [2, 3, 1, 0, 128, 0]);
    assert!(answer.bytes[3 * 28..].starts_with(b"LIMB    "));
    assert_eq!(answer.bytes[5 * 28..3584], [0; 123 * 28]);
    assert_eq!(answer.bytes[3584..3584 + 5 * 62], [b' '; 5 * 62]);
    assert_eq!(answer.bytes[3584 + 5 * 62..], [0; 123 * 62]);
}
