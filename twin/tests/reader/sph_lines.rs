//! Rule 7 and the SPH part.

use crate::common::{demo, refusal, refused, verdict_on, NONE};
use twin::builder::{named_product, Description, Generator};
use twin::{sph_part, sph_place, Part, Verdict};

fn with_lines(lines: &[u8]) -> Description {
    let mut description = Description::new(vec![demo()]);
    description.sph_lines = lines.to_vec();
    description
}

#[test]
fn good_lines_are_accepted() {
    let good: [&[u8]; 20] = [
        b"",
        b" \n",
        b"                                                  \n",
        b"A=1\n",
        b"A=\"\"\n",
        b"A=\"x\"\n",
        b"A=\" \"\n",
        b"A= \n",
        b"STAR=             \n",
        b"A==\n",
        b"A=B=C\n",
        b"A=~!#\n",
        b"A0_9Z=1\n",
        b"A_=1\n",
        b"INIT_VERSION= 401 DECONT=nnnnnyyy        \n",
        b"LONG_KEYWORD_OF_MORE_THAN_THIRTY_TWO_BYTES_0123456789=\"v\"\n",
        b"A=value of more than thirty-two bytes, then some more of them <10-6degN>\n",
        b"A=\"quoted text of more than thirty-two bytes, then some more of them\"\n",
        b"A=1\n \nB=\"\"\n  \nC=2\n",
        b"START_LAT=+0045000000<10-6degN>\n",
    ];
    for lines in good {
        let product = with_lines(lines).build();
        assert_eq!(twin::judge(&product), Verdict::Accepted, "{}", lines.escape_ascii());
        let length = lines.len() as u64;
        assert_eq!(sph_place(&product), Ok(Part { place: 1247, length }));
        assert_eq!(sph_part(&product), lines);
    }
}

const BAD_LINES: [&[u8]; 34] = [
    b"\n",
    b" ",
    b"   ",
    b"A",
    b"A=",
    b"A=1",
    b"A=\"",
    b"A=\"x",
    b"A=\"x\"",
    b"A\n",
    b"A=\n",
    b"=1\n",
    b"A=\"\n",
    b"A=\"x\" \n",
    b"A=\"x\"<m>\n",
    b"A=\"a\"b\"\n",
    b"A=\"\"\"\n",
    b"A=a\"\n",
    b"A=a\"b\n",
    b" A=1\n",
    b"\tA=1\n",
    b"A=1\r\n",
    b"A=\x7f\n",
    b"A=\x80\n",
    b"A=\x00\n",
    b"A=\x1f\n",
    b"a=1\n",
    b"Ab=1\n",
    b"1=1\n",
    b"_=1\n",
    b"A =1\n",
    b"DECONT =nnnnnyyy\n",
    b"  \t\n",
    b"\x00\n",
];

#[test]
fn bad_lines_are_refused_at_their_first_byte() {
    for line in BAD_LINES {
        let first = verdict_on(&with_lines(line));
        assert_eq!(first, refused(7, 1247, NONE), "{}", line.escape_ascii());
        let after = [b"A=1\n    \nB=\"\"\n", line].concat();
        assert_eq!(verdict_on(&with_lines(&after)), refused(7, 1261, NONE), "{}", line.escape_ascii());
    }
}

#[test]
fn the_first_bad_line_counts() {
    assert_eq!(verdict_on(&with_lines(b"A=1\nB=\nC=\n")), refused(7, 1251, NONE));
    assert_eq!(verdict_on(&with_lines(b"A=1\nB=\"x\nC=\"\n")), refused(7, 1251, NONE));
}

#[test]
fn a_line_does_not_run_on_into_the_descriptors() {
    assert_eq!(verdict_on(&with_lines(b"A=1\nB=2")), refused(7, 1251, NONE));
    assert_eq!(verdict_on(&with_lines(b"A=1\nDS_NAME")), refused(7, 1251, NONE));
    assert_eq!(verdict_on(&with_lines(b"A=1\n ")), refused(7, 1251, NONE));
}

#[test]
fn an_empty_part_has_a_place() {
    let product = named_product("case-a").unwrap();
    assert_eq!(sph_place(&product), Ok(Part { place: 1247, length: 0 }));
    assert_eq!(sph_part(&product), b"");
    let refused = named_product("case-e").unwrap();
    assert_eq!(sph_place(&refused), Err(refusal(14, 1542, NONE)));
    assert_eq!(sph_part(&refused), b"");
}

/// The grammar read line by line, without looking ahead.
pub fn first_bad_line(lines: &[u8]) -> Option<usize> {
    let text = |bytes: &[u8]| bytes.iter().all(|&byte| (32..127).contains(&byte) && byte != 34);
    let mut start = 0;
    for line in lines.split_inclusive(|&byte| byte == 10) {
        let good = match line.split_last() {
            Some((10, line)) if !line.is_empty() && line.iter().all(|&byte| byte == 32) => true,
            Some((10, line)) => {
                let equals = line.iter().position(|&byte| byte == b'=').unwrap_or(0);
                let (key, value) = (&line[..equals], line.get(equals + 1..).unwrap_or(b""));
                let keyword = key.first().is_some_and(u8::is_ascii_uppercase)
                    && key.iter().all(|byte| b"ABCDEFGHIJKLMNOPQRSTUVWXYZ0123456789_".contains(byte));
                let quoted = value.len() >= 2 && value[0] == 34 && value[value.len() - 1] == 34;
                let inner = if quoted { &value[1..value.len() - 1] } else { value };
                keyword && text(inner) && (quoted || !value.is_empty())
            }
            _ => false,
        };
        if !good {
            return Some(start);
        }
        start += line.len();
    }
    None
}

#[test]
fn random_lines_agree_with_the_grammar() {
    let mut generator = Generator::new(twin::settings::seed());
    let (mut good, mut bad) = (0, 0);
    for _ in 0..60_000 {
        let length = generator.index(14);
        let lines: Vec<u8> = (0..length).map(|_| generator.choose(b"AZ=\" \n\n\"=A0_a")).collect();
        let verdict = verdict_on(&with_lines(&lines));
        match first_bad_line(&lines) {
            Some(start) => {
                assert_eq!(verdict, refused(7, 1247 + start as u64, NONE), "{}", lines.escape_ascii());
                bad += 1;
            }
            None => {
                assert_eq!(verdict, Verdict::Accepted, "{}", lines.escape_ascii());
                good += 1;
            }
        }
    }
    assert!(good > 1000 && bad > 1000, "{good} {bad}");
}
