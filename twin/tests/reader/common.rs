//! What the tests share: short forms of verdicts and requests.

use twin::builder::{Description, EntryDescription, Number, Request};
use twin::{extinction, field, judge, point, record_place, Refusal, Verdict};

pub const NONE: usize = 128;

pub fn refused(number: u8, place: u64, entry: usize) -> Verdict {
    Verdict::Refused { number, place, entry }
}

pub fn refusal(number: u8, place: u64, entry: usize) -> Refusal {
    Refusal { number, place, entry }
}

pub fn verdict_on(description: &Description) -> Verdict {
    judge(&description.build())
}

pub fn number(value: i128) -> Option<Number> {
    Some(Number::from(value))
}

/// Case B's entry.
pub fn demo() -> EntryDescription {
    EntryDescription::records(b'G', "DEMO", 3, 5)
}

/// The verdict on a product of one entry, case B's as changed.
pub fn verdict_on_demo(change: impl FnOnce(&mut EntryDescription)) -> Verdict {
    let mut entry = demo();
    change(&mut entry);
    verdict_on(&Description::new(vec![entry]))
}

/// Whether a request is answered or how it is refused.
pub fn answer(product: &[u8], request: Request) -> Verdict {
    let refused = match request {
        Request::Judge => return judge(product),
        Request::Record { entry, record } => record_place(product, entry, record).err(),
        Request::Field { entry, record, offset, kind } => {
            field(product, entry, record, offset, kind).err()
        }
        Request::Point { entry, record, offsets: [latitude, longitude, altitude] } => {
            point(product, entry, record, latitude, longitude, altitude).err()
        }
        Request::Pixel { record, pixel } => extinction(product, record, pixel).err(),
    };
    refused.map_or(Verdict::Accepted, Verdict::from)
}
