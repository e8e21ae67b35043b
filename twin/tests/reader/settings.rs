//! The settings of the random tests.

use std::ffi::OsString;
use std::os::unix::ffi::OsStringExt;

use twin::settings::read;

#[test]
fn a_setting_is_its_number_or_the_default() {
    assert_eq!(read("TWIN_PRODUCTS", None, 5), Ok(5));
    for (text, number) in [("0", 0), ("3000", 3000), ("18446744073709551615", u64::MAX)] {
        assert_eq!(read("TWIN_PRODUCTS", Some(text.into()), 5), Ok(number));
    }
}

#[test]
fn a_setting_that_is_no_number_is_an_error() {
    for text in ["", "x", "3 000", "3,000", "-1", "1e6", "0x10", "18446744073709551616", "random"] {
        let error = format!("TWIN_PRODUCTS is {text:?}: it takes a whole number below 2^64");
        assert_eq!(read("TWIN_PRODUCTS", Some(text.into()), 5), Err(error));
    }
    assert!(read("TWIN_PRODUCTS", Some(OsString::from_vec(vec![b'7', 0xff])), 5).is_err());
}
