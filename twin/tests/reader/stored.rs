//! What is stored in the repository is what the twin makes: the products and the text of `crates/vectors`, those of
//! `crates/listing`, and the samples.

use std::collections::BTreeSet;
use std::fs;
use std::path::{Path, PathBuf};

use twin::builder::named_product;
use twin::vectors::{vectors, VECTOR_PRODUCTS};
use twin::{directory, judge, listing, Verdict, LONGEST_LISTED};

/// The samples by their file names, and the named products they are.
const SAMPLES: [(&str, &str); 4] = [
    ("case-b", "case-b"),
    ("built-GOM_EXT_2P", "GOM_EXT_2P"),
    ("built-SCI_NL__1P", "SCI_NL__1P"),
    ("damaged-SCI_NL__1P", "SCI_NL__1P-damaged"),
];

fn in_repository(path: &str) -> PathBuf {
    Path::new(env!("CARGO_MANIFEST_DIR")).join("..").join(path)
}

/// The bytes of a stored file.
fn stored(path: &str) -> Vec<u8> {
    let path = in_repository(path);
    fs::read(&path).unwrap_or_else(|error| panic!("{}: {error}", path.display()))
}

/// The file names in a stored folder.
fn names_in(folder: &str) -> BTreeSet<String> {
    let names = fs::read_dir(in_repository(folder)).expect(folder);
    names.map(|entry| entry.unwrap().file_name().into_string().unwrap()).collect()
}

fn text_of_all() -> Vec<u8> {
    VECTOR_PRODUCTS.iter().flat_map(|name| vectors(name, &named_product(name).unwrap())).collect()
}

/// The lines of the text as their word and the numbers behind it.
fn lines_of_numbers() -> Vec<(String, Vec<u64>)> {
    let text = String::from_utf8(text_of_all()).unwrap();
    let with_numbers = text.lines().map(|line| {
        let mut parts = line.split(' ');
        let word = parts.next().unwrap_or_default().to_string();
        (word, parts.map_while(|part| part.parse().ok()).collect())
    });
    with_numbers.collect()
}

#[test]
fn the_stored_text_is_the_twins() {
    assert!(
        stored("crates/vectors/stdout") == text_of_all(),
        "crates/vectors/stdout is not what twin-vectors prints"
    );
}

#[test]
fn the_stored_products_are_the_builders() {
    let names = VECTOR_PRODUCTS.map(String::from).into_iter().collect();
    assert_eq!(names_in("crates/vectors/data"), names);
    for name in VECTOR_PRODUCTS {
        let product = stored(&format!("crates/vectors/data/{name}"));
        assert!(Some(product) == named_product(name), "{name} is not what twin-make {name} writes");
    }
}

#[test]
fn the_stored_listings_are_the_twins() {
    let mut text = Vec::new();
    for name in names_in("crates/listing/stored") {
        let product = stored(&format!("crates/listing/stored/{name}"));
        text.extend(listing(&product));
        assert!(Some(product) == named_product(&name), "{name} is not what twin-make {name} writes");
    }
    assert!(stored("crates/listing/stored.stdout") == text, "not what twin-list prints");
    assert_eq!(stored("crates/listing/stdout"), listing(&stored("crates/listing/stdin")));
}

#[test]
fn the_text_shows_every_refusal_but_2() {
    let mut seen = BTreeSet::new();
    for (word, numbers) in lines_of_numbers() {
        let asked = match word.as_str() {
            "judge" | "directory" | "header" | "sph_place" => 0,
            "record_place" | "extinction_at" => 2,
            "field_at" => 4,
            "point_at" => 5,
            _ => continue,
        };
        seen.insert(numbers[asked]);
    }
    let expected = (0..=24).filter(|&number| number != 2).collect();
    assert_eq!(seen, expected);
}

#[test]
fn the_text_shows_every_record_of_unequal_length() {
    let product = named_product("unequal-lengths").unwrap();
    let counts = directory(&product).unwrap().counts;
    assert_eq!(counts[..5], [8, 5, 5, 3, 0]);
    let text = String::from_utf8(vectors("unequal-lengths", &product)).unwrap();
    let shown = text.lines().filter(|line| line.starts_with("record_place ")).count();
    assert_eq!(shown, 9 + 6 + 6 + 4 + 1 + 1);
}

#[test]
fn the_text_of_a_product_too_long_to_list_says_so() {
    let text = |name| String::from_utf8(vectors(name, &named_product(name).unwrap())).unwrap();
    assert_eq!(text("listed-no-more"), "product listed-no-more\nlonger than 65536\n");
    assert!(text("listed-last").starts_with("product listed-last\njudge 14 1247 128\n"));
}

#[test]
fn every_line_of_words_has_its_length() {
    for (word, numbers) in lines_of_numbers() {
        let length = match word.as_str() {
            "judge" => 3,
            "directory" => 4,
            "entry" => 7,
            "header" => 25,
            "sph_place" => 5,
            "record_place" => 7,
            "field_at" | "point_at" => 11,
            "extinction_at" => 14,
            _ => continue,
        };
        assert_eq!(numbers.len(), length, "{word} {numbers:?}");
    }
}

#[test]
fn the_samples_are_the_builders() {
    let mut names: BTreeSet<String> = SAMPLES.iter().map(|sample| sample.0.to_string()).collect();
    names.insert("README.md".to_string());
    assert_eq!(names_in("samples"), names);
    for (file, name) in SAMPLES {
        let product = stored(&format!("samples/{file}"));
        assert!(product.len() <= LONGEST_LISTED, "{file}");
        assert!(
            Some(&product) == named_product(name).as_ref(),
            "{file} is not what twin-make {name} writes"
        );
        let accepted = judge(&product) == Verdict::Accepted;
        assert_eq!(accepted, !file.starts_with("damaged"), "{file}");
    }
}

#[test]
fn the_readme_of_the_samples_shows_their_listings() {
    let readme = String::from_utf8(stored("samples/README.md")).unwrap();
    for (file, name) in SAMPLES {
        let listed = String::from_utf8(listing(&named_product(name).unwrap())).unwrap();
        let (first, last) = (listed.lines().next().unwrap(), listed.lines().last().unwrap());
        assert!(readme.contains(&format!("`{file}`")), "{file}");
        assert!(readme.contains(first) && readme.contains(last), "{file}: {first}, {last}");
    }
}
