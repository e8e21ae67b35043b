//! The main product header: rules 3 to 6, and its thirty-four values.

use crate::layout::{header_value, DESCRIPTOR_SIZE, MAIN_HEADER_BOUNDS, MAIN_HEADER_SIZE};
use crate::refusal::Refusal;
use crate::text::{decimal, first_outside, long, quoted, whole};

const TOT_SIZE: usize = header_value("TOT_SIZE");
const SPH_SIZE: usize = header_value("SPH_SIZE");
const NUM_DSD: usize = header_value("NUM_DSD");
const DSD_SIZE: usize = header_value("DSD_SIZE");
const NUM_DATA_SETS: usize = header_value("NUM_DATA_SETS");

/// The place of a rule 11 refusal.
pub(crate) const NUM_DATA_SETS_PLACE: u64 = NUM_DATA_SETS as u64;
/// The longest SPH.
const LONGEST_SPH: i64 = 49_152;
/// The most DSDs.
const MOST_DESCRIPTORS: i64 = 128;

/// What the main header says of the rest of the headers.
pub(crate) struct HeaderSizes {
    /// The first byte after the SPH lines, where the DSDs start.
    pub lines_end: usize,
    /// The first byte after both headers.
    pub headers_end: usize,
    pub data_sets: i64,
}

/// Rules 3 to 6, for a product of this length.
pub(crate) fn check_main_header(
    header: &[u8; MAIN_HEADER_SIZE],
    length: usize,
) -> Result<HeaderSizes, Refusal> {
    if let Some(fault) = first_outside(header, &MAIN_HEADER_BOUNDS) {
        return Err(Refusal::without_entry(3, fault as u64));
    }
    let total = long(header, TOT_SIZE);
    let total = total.ok_or(Refusal::without_entry(4, TOT_SIZE as u64))?;
    if total != length as i64 {
        return Err(Refusal::without_entry(5, TOT_SIZE as u64));
    }
    check_sizes(header, length)
}

/// Rule 6.
fn check_sizes(header: &[u8], length: usize) -> Result<HeaderSizes, Refusal> {
    let sph_size = whole(header, SPH_SIZE, 10);
    let room = (length - MAIN_HEADER_SIZE) as i64;
    if !(0..=LONGEST_SPH).contains(&sph_size) || sph_size > room {
        return Err(Refusal::without_entry(6, SPH_SIZE as u64));
    }
    let descriptors = whole(header, NUM_DSD, 10);
    let descriptor_size = DESCRIPTOR_SIZE as i64;
    if !(0..=MOST_DESCRIPTORS).contains(&descriptors) || descriptors * descriptor_size > sph_size {
        return Err(Refusal::without_entry(6, NUM_DSD as u64));
    }
    if whole(header, DSD_SIZE, 10) != descriptor_size {
        return Err(Refusal::without_entry(6, DSD_SIZE as u64));
    }
    let headers_end = MAIN_HEADER_SIZE + sph_size as usize;
    Ok(HeaderSizes {
        lines_end: headers_end - descriptors as usize * DESCRIPTOR_SIZE,
        headers_end,
        data_sets: whole(header, NUM_DATA_SETS, 10),
    })
}

/// The values of the main header, in document order. A q answers its bytes, a c its byte, sN a whole
/// number, sA.B a whole number in units of its last digit.
#[derive(Clone, Copy, Debug, PartialEq, Eq)]
pub struct HeaderValues {
    pub product: [u8; 62],
    pub proc_stage: u8,
    pub ref_doc: [u8; 23],
    pub acquisition_station: [u8; 20],
    pub proc_center: [u8; 6],
    pub proc_time: [u8; 27],
    pub software_ver: [u8; 14],
    pub sensing_start: [u8; 27],
    pub sensing_stop: [u8; 27],
    pub phase: u8,
    pub cycle: i64,
    pub rel_orbit: i64,
    pub abs_orbit: i64,
    pub state_vector_time: [u8; 27],
    pub delta_ut1: i64,
    pub x_position: i64,
    pub y_position: i64,
    pub z_position: i64,
    pub x_velocity: i64,
    pub y_velocity: i64,
    pub z_velocity: i64,
    pub vector_source: [u8; 2],
    pub utc_sbt_time: [u8; 27],
    pub sat_binary_time: i64,
    pub clock_step: i64,
    pub leap_utc: [u8; 27],
    pub leap_sign: i64,
    pub leap_err: u8,
    pub product_err: u8,
    pub tot_size: i64,
    pub sph_size: i64,
    pub num_dsd: i64,
    pub dsd_size: i64,
    pub num_data_sets: i64,
}

impl HeaderValues {
    /// The values of an accepted product's main header.
    pub(crate) fn read(header: &[u8]) -> HeaderValues {
        HeaderValues {
            product: quoted(header, const { header_value("PRODUCT") }),
            proc_stage: header[const { header_value("PROC_STAGE") }],
            ref_doc: quoted(header, const { header_value("REF_DOC") }),
            acquisition_station: quoted(header, const { header_value("ACQUISITION_STATION") }),
            proc_center: quoted(header, const { header_value("PROC_CENTER") }),
            proc_time: quoted(header, const { header_value("PROC_TIME") }),
            software_ver: quoted(header, const { header_value("SOFTWARE_VER") }),
            sensing_start: quoted(header, const { header_value("SENSING_START") }),
            sensing_stop: quoted(header, const { header_value("SENSING_STOP") }),
            phase: header[const { header_value("PHASE") }],
            cycle: whole(header, const { header_value("CYCLE") }, 3),
            rel_orbit: whole(header, const { header_value("REL_ORBIT") }, 5),
            abs_orbit: whole(header, const { header_value("ABS_ORBIT") }, 5),
            state_vector_time: quoted(header, const { header_value("STATE_VECTOR_TIME") }),
            delta_ut1: decimal(header, const { header_value("DELTA_UT1") }, 0, 6),
            x_position: decimal(header, const { header_value("X_POSITION") }, 7, 3),
            y_position: decimal(header, const { header_value("Y_POSITION") }, 7, 3),
            z_position: decimal(header, const { header_value("Z_POSITION") }, 7, 3),
            x_velocity: decimal(header, const { header_value("X_VELOCITY") }, 4, 6),
            y_velocity: decimal(header, const { header_value("Y_VELOCITY") }, 4, 6),
            z_velocity: decimal(header, const { header_value("Z_VELOCITY") }, 4, 6),
            vector_source: quoted(header, const { header_value("VECTOR_SOURCE") }),
            utc_sbt_time: quoted(header, const { header_value("UTC_SBT_TIME") }),
            sat_binary_time: whole(header, const { header_value("SAT_BINARY_TIME") }, 10),
            clock_step: whole(header, const { header_value("CLOCK_STEP") }, 10),
            leap_utc: quoted(header, const { header_value("LEAP_UTC") }),
            leap_sign: whole(header, const { header_value("LEAP_SIGN") }, 3),
            leap_err: header[const { header_value("LEAP_ERR") }],
            product_err: header[const { header_value("PRODUCT_ERR") }],
            tot_size: long(header, TOT_SIZE).unwrap_or(0),
            sph_size: whole(header, SPH_SIZE, 10),
            num_dsd: whole(header, NUM_DSD, 10),
            dsd_size: whole(header, DSD_SIZE, 10),
            num_data_sets: whole(header, NUM_DATA_SETS, 10),
        }
    }

    /// The twelve texts, in document order.
    pub fn texts(&self) -> [&[u8]; 12] {
        [
            &self.product,
            &self.ref_doc,
            &self.acquisition_station,
            &self.proc_center,
            &self.proc_time,
            &self.software_ver,
            &self.sensing_start,
            &self.sensing_stop,
            &self.state_vector_time,
            &self.vector_source,
            &self.utc_sbt_time,
            &self.leap_utc,
        ]
    }

    /// The four single bytes, in document order.
    pub fn single_bytes(&self) -> [u8; 4] {
        [self.proc_stage, self.phase, self.leap_err, self.product_err]
    }

    /// The eighteen whole numbers, in document order.
    pub fn numbers(&self) -> [i64; 18] {
        [
            self.cycle,
            self.rel_orbit,
            self.abs_orbit,
            self.delta_ut1,
            self.x_position,
            self.y_position,
            self.z_position,
            self.x_velocity,
            self.y_velocity,
            self.z_velocity,
            self.sat_binary_time,
            self.clock_step,
            self.leap_sign,
            self.tot_size,
            self.sph_size,
            self.num_dsd,
            self.dsd_size,
            self.num_data_sets,
        ]
    }
}
