//! Times judge and directory, a pixel of residual extinction, and times and their texts, through the
//! library and in the twin, on the same products, texts and times in one run, and prints a table: the
//! best of many rounds for each, which alternate, with what is read and rooms warm.

use std::hint::black_box;
use std::time::{Duration, Instant};

use compare::{library, Comparer};
use twin::builder::{named_product, Generator};
use twin::words::{write_text_of_time, write_time_of_text, Call, TIME_TEXT_WORDS, TIME_WORDS};
use twin::words::{DIRECTORY_TEXTS, DIRECTORY_WORDS, VERDICT_WORDS};
use twin::words::{EXTINCTION_DOUBLES, EXTINCTION_WORDS};
use twin::{Time, TIME_TEXT};

/// Rounds of each reader, and how long one round should take.
const ROUNDS: usize = 60;
const ROUND: Duration = Duration::from_millis(2);

/// The products by their names, and what the table calls them. The shortest blank line is a blank and byte 10: byte 10
/// alone is a bad line (rule 7).
const PRODUCTS: [(&str, &str); 14] = [
    ("case-a", "main header alone (case A)"),
    ("descriptors-41", "41 entries of one byte"),
    ("states-1000", "41 entries, 1,000 states"),
    ("descriptors-64", "64 entries of one byte"),
    ("descriptors-128", "128 entries of one byte"),
    ("descriptors-128-reversed", "128 entries of one byte, reversed"),
    ("descriptors-128-shuffled", "128 entries of one byte, shuffled"),
    ("spares-128", "128 spares"),
    ("sph-49152", "49,152 bytes of SPH: one blank line"),
    ("sph-shortest-blank-lines", "49,152 bytes of SPH: shortest blank lines (2 bytes)"),
    ("sph-long-lines", "49,152 bytes of SPH: long unquoted lines"),
    ("sph-long-quoted-lines", "49,152 bytes of SPH: long quoted lines"),
    ("sph-short-lines", "49,152 bytes of SPH: A=1"),
    (WITH_PIXELS, "GOMOS EXT"),
];
/// The product whose pixel is asked for, in the middle of its record.
const WITH_PIXELS: &str = "GOM_EXT_2P";
const PIXEL: usize = 1167;

/// The times: so many, from 1 January 1980 to 20 November 2099, so far apart that they fall into all
/// months.
const TIMES: i32 = 493;
const FIRST_DAY: i32 = -7305;
const DAYS_APART: i32 = 89;

/// The rooms of the library's answers.
struct Rooms {
    words: [u64; DIRECTORY_WORDS],
    texts: [u8; DIRECTORY_TEXTS],
    model: [f64; EXTINCTION_DOUBLES],
}

/// The best time of one run of each, in nanoseconds: ours, then the twin's.
fn best_of_both(mut ours: impl FnMut(), mut twins: impl FnMut()) -> [f64; 2] {
    let runs = [runs_in_a_round(&mut ours), runs_in_a_round(&mut twins)];
    let mut best = [f64::INFINITY; 2];
    for _ in 0..ROUNDS {
        best[0] = best[0].min(time_of_one(&mut ours, runs[0]));
        best[1] = best[1].min(time_of_one(&mut twins, runs[1]));
    }
    best
}

/// How many runs take about a round; running them warms product and rooms.
fn runs_in_a_round(run: &mut impl FnMut()) -> u32 {
    let mut runs = 1;
    loop {
        let start = Instant::now();
        (0..runs).for_each(|_| run());
        if start.elapsed() >= ROUND {
            return runs;
        }
        runs *= 2;
    }
}

fn time_of_one(run: &mut impl FnMut(), runs: u32) -> f64 {
    let start = Instant::now();
    (0..runs).for_each(|_| run());
    start.elapsed().as_secs_f64() * 1e9 / f64::from(runs)
}

fn time_judge(product: &[u8], rooms: &mut Rooms) -> [f64; 2] {
    let words = &mut rooms.words[..VERDICT_WORDS];
    let ours = || {
        let returned = library::judge(black_box(product), words);
        assert_eq!(returned, library::WRITTEN);
        black_box(&mut *words);
    };
    let twins = || {
        black_box(twin::judge(black_box(product)));
    };
    best_of_both(ours, twins)
}

fn time_directory(product: &[u8], rooms: &mut Rooms) -> [f64; 2] {
    let ours = || {
        let returned = library::open_directory(black_box(product), &mut rooms.words, &mut rooms.texts);
        assert_eq!(returned, library::WRITTEN);
        black_box(&mut *rooms);
    };
    let twins = || {
        black_box(&twin::directory(black_box(product)));
    };
    best_of_both(ours, twins)
}

fn time_pixel(product: &[u8], rooms: &mut Rooms) -> [f64; 2] {
    let (words, model) = (&mut rooms.words[..EXTINCTION_WORDS], &mut rooms.model);
    let ours = || {
        let returned = library::extinction_at(black_box(product), 0, black_box(PIXEL), words, model);
        assert_eq!(returned, library::WRITTEN);
        black_box((&mut *words, &mut *model));
    };
    let twins = || {
        black_box(&twin::extinction(black_box(product), 0, black_box(PIXEL as u64)));
    };
    best_of_both(ours, twins)
}

/// Times of any hour, the same in every run.
fn varied_times() -> Vec<Time> {
    let mut choices = Generator::new(7);
    let mut draw = |index| Time {
        days: FIRST_DAY + DAYS_APART * index,
        seconds: choices.below(86_400) as u32,
        microseconds: choices.below(1_000_000) as u32,
    };
    (0..TIMES).map(&mut draw).collect()
}

/// The texts of times, of which both have answered each way.
fn texts_of(times: &[Time]) -> Vec<Vec<u8>> {
    let mut comparer = Comparer::of("times of the benchmark");
    let mut text_of = |&time| comparer.compare(&[], Call::TextOfTime { time }).bytes;
    let texts: Vec<Vec<u8>> = times.iter().map(&mut text_of).collect();
    for text in &texts {
        comparer.compare(text, Call::TimeOfText);
    }
    assert_eq!(comparer.met().times_answered, times.len() as u64, "a time is not answered");
    texts
}

/// The times of one text each, all texts in turn.
fn time_texts(texts: &[Vec<u8>]) -> [f64; 2] {
    let mut rooms = [[0; TIME_WORDS]; 2];
    let [words, twins_words] = &mut rooms;
    let ours = || {
        for text in texts {
            let returned = library::time_of_text(black_box(text), words);
            assert_eq!(returned, library::WRITTEN);
            black_box(&mut *words);
        }
    };
    let twins = || {
        for text in texts {
            assert!(write_time_of_text(black_box(text), twins_words));
            black_box(&mut *twins_words);
        }
    };
    best_of_both(ours, twins).map(|all| all / texts.len() as f64)
}

/// The times of one time each, all times in turn.
fn time_times(times: &[Time]) -> [f64; 2] {
    let mut rooms = [([0; TIME_TEXT_WORDS], [0; TIME_TEXT]); 2];
    let [(words, text), (twins_words, twins_text)] = &mut rooms;
    let ours = || {
        for time in times {
            let returned = library::text_of_time(black_box(*time), words, text);
            assert_eq!(returned, library::WRITTEN);
            black_box((&mut *words, &mut *text));
        }
    };
    let twins = || {
        for time in times {
            assert!(write_text_of_time(black_box(*time), twins_words, twins_text));
            black_box((&mut *twins_words, &mut *twins_text));
        }
    };
    best_of_both(ours, twins).map(|all| all / times.len() as f64)
}

/// The release profile of the twin's workspace, as its Cargo.toml says it.
fn release_profile() -> String {
    let manifest = include_str!("../../../Cargo.toml");
    let lines = manifest.lines().skip_while(|line| *line != "[profile.release]").skip(1);
    lines.take_while(|line| !line.is_empty()).collect::<Vec<_>>().join(", ")
}

fn print_compilers() {
    let stated = |text: &'static str| if text.is_empty() { "none" } else { text };
    println!("twin:     {}", env!("COMPARE_COMPILER"));
    println!("          profile {}: {}", env!("COMPARE_PROFILE"), release_profile());
    println!("          opt-level as built: {}", env!("COMPARE_OPTIMIZED"));
    println!("          other flags: {}", stated(env!("COMPARE_FLAGS")));
    println!("          target features: {}", stated(env!("COMPARE_FEATURES")));
    println!("library:  libambrothel.a, built by `.ci/library` (LLVM -O3 unless told otherwise)");
    println!("each time: the best of {ROUNDS} rounds of about {ROUND:?}, alternating, all warm");
    println!();
}

/// Prints a row of the table; short times with a tenth.
fn print_row(call: &str, title: &str, [ours, twins]: [f64; 2]) {
    let tenths = usize::from(ours.min(twins) < 100.0);
    let ratio = ours / twins;
    println!("{call:<12} {title:<51} {ours:>10.tenths$} {twins:>10.tenths$} {ratio:>10.2}");
}

/// Prints the rows of times and their texts.
fn time_both_ways() {
    let times = varied_times();
    let texts = texts_of(&times);
    let title = format!("one of {TIMES}, from 1980 to 2099");
    print_row("text to time", &title, time_texts(&texts));
    print_row("time to text", &title, time_times(&times));
}

/// Prints the rows of a product; where it has pixels, answers a pixel's times by its verdict's: ours, then the twin's.
fn time_product(name: &str, title: &str, rooms: &mut Rooms) -> Option<[f64; 2]> {
    let product = named_product(name).expect(name);
    let verdict = Comparer::of(name).compare(&product, Call::Judge);
    assert_eq!(verdict.words, [0, 0, 0], "{name} is not accepted");
    let judge = time_judge(&product, rooms);
    print_row("judge", title, judge);
    print_row("directory", title, time_directory(&product, rooms));
    if name != WITH_PIXELS {
        return None;
    }
    let answer = Comparer::of(name).compare(&product, Call::ExtinctionAt { record: 0, pixel: PIXEL });
    assert_eq!(answer.words[..3], [0, 0, 0], "the pixel of {name} is not answered");
    let pixel = time_pixel(&product, rooms);
    print_row("pixel", title, pixel);
    Some([pixel[0] / judge[0], pixel[1] / judge[1]])
}

fn main() {
    print_compilers();
    let mut rooms = Rooms {
        words: [0; DIRECTORY_WORDS],
        texts: [0; DIRECTORY_TEXTS],
        model: [0.0; EXTINCTION_DOUBLES],
    };
    println!("{:<12} {:<51} {:>10} {:>10} {:>10}", "call", "of", "ours/ns", "twin/ns", "ours/twin");
    let timed = PRODUCTS.map(|(name, title)| time_product(name, title, &mut rooms));
    time_both_ways();
    println!();
    for [ours, twins] in timed.into_iter().flatten() {
        println!("pixel by judge on {WITH_PIXELS}: ours {ours:.2}, twin {twins:.2}");
    }
}
