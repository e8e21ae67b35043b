//! Products with the facts of the source documents: entry names, types, record sizes and SPH lines of
//! GOMOS (source 001) and SCIAMACHY (source 003) products. Record contents are a pattern, but for the states, for the
//! ray tracing grid of GOM_TRA_1P, and for GOM_EXT_2P, which shows a star through the atmosphere.

use super::atmosphere::observe_star;
use super::description::{Description, EntryDescription, Number, StateDescription};

/// The facts of one product: SPH lines, sets (type, name, records, record size), and behind them the names of the
/// R entries and the number of spares.
struct Facts {
    product: &'static str,
    sph_lines: &'static [&'static str],
    sets: &'static [(u8, &'static str, usize, usize)],
    references: &'static [&'static str],
    spares: usize,
}

/// The products that can be built, by their product identifier.
pub const CATALOGUE_NAMES: [&str; 8] = [
    "GOM_NL__2P",
    "GOM_RR__2P",
    "GOM_EXT_2P",
    "GOM_LIM_1P",
    "GOM_TRA_1P",
    "GOM_PR1_AX",
    "SCI_RV__2P",
    "SCI_NL__1P",
];

/// The SPH lines that the GOMOS products of an occultation share.
const OCCULTATION_LINES: &str = concat!(
    "START_TIME=\"01-JAN-2000 00:00:00.000000\"\n",
    "STOP_TIME=\"01-JAN-2000 00:00:00.000000\"\n",
    "START_TANGENT_LAT=+0045000000<10-6degN>\n",
    "START_TANGENT_LONG=-0012000000<10-6degE>\n",
    "STOP_TANGENT_LAT=+0046000000<10-6degN>\n",
    "STOP_TANGENT_LONG=-0012500000<10-6degE>\n",
    "                                                  \n",
    "OCC_DURATION=+00050<10-2s>\n",
    "SAMP_DURATION=+00500<10-3s>\n",
    "NUM_MEASURE=+00001\n",
    "INS_STATUS=0\n",
    "OCC_NUM=+001\n",
    "STAR=Sirius       \n",
    "STAR_ID=+00001\n",
    "STAR_MAG=-01440<10-3>\n",
    "STAR_TEMP=+0000110000<10-1K>\n",
    "STAR_DIRECT1=+1.01287155E+02-1.67161159E+01<deg>\n",
    "STAR_DIRECT2=+1.00000000E+00+0.00000000E+00+0.00000000E+00\n",
    "BRIGHT_LIMB=0\n",
);

/// The SPH lines that the GOMOS level 2 products share behind these.
const LEVEL_2_LINES: &str = concat!(
    "NUM_LV2PROC=+00001\n",
    "                               \n",
    "REF_WAVELENGTH=+0000500000<10-3nm>\n",
    "TIME_SHIFT=+00250<10-3s>\n",
);

/// The R entries that the GOMOS level 2 products share.
const LEVEL_2_REFERENCES: &[&str] =
    &["LEVEL-1B_PRODUCT", "INST_PHYS_CHARACTERISTICS", "LEVEL-2_PROC_CONFIG", "CROSS_SECTIONS_FILE"];

/// The R entries that the GOMOS level 1b products share.
const LEVEL_1B_REFERENCES: &[&str] = &[
    "LEVEL_0_PRODUCT",
    "INST_PHYS_CHARACTERISTICS",
    "CALIBRATION_DATABASE",
    "LEVEL-1B_PROC_CONFIG",
    "STAR_CATALOGUE",
    "STELLAR_SPECTRA_DATABANK",
    "ECMWF_FILE",
    "OPTIONAL_ECMWF_FILE",
    "ORBIT_DATA_FILE",
    "ATTITUDE_FILE",
];

/// The SPH lines that the SCIAMACHY products share.
const SLICE_LINES: &str = concat!(
    "STRIPLINE_CONTINUITY_INDICATOR=+000\n",
    "SLICE_POSITION=+001\n",
    "NUM_SLICES=+001\n",
    "START_TIME=\"27-JUN-2007 10:00:00.000000\"\n",
    "STOP_TIME=\"27-JUN-2007 11:40:00.000000\"\n",
    "START_LAT=+0045000000<10-6degN>\n",
    "START_LONG=-0012500000<10-6degE>\n",
    "STOP_LAT=-0030000000<10-6degN>\n",
    "STOP_LONG=+0179999999<10-6degE>\n",
    "                                                  \n",
);

const GOM_NL_2P: Facts = Facts {
    product: "GOM_NL__2P",
    sph_lines: &[
        "SPH_DESCRIPTOR=\"GOMOS LEVEL 2               \"\n",
        OCCULTATION_LINES,
        LEVEL_2_LINES,
        "TURB_START=-00001\n",
        "TURB_SIZE=+00000\n",
        "CC_WIND_LENGTH=+1.50000000E+02<m>\n",
        "                                                  \n",
    ],
    sets: &[
        (b'G', "NL_SUMMARY_QUALITY", 1, 153),
        (b'M', "NL_LOCAL_SPECIES_DENSITY", 1, 81),
        (b'M', "NL_TANGENT_LINE_DENSITY", 1, 81),
        (b'M', "NL_AEROSOLS", 1, 97),
        (b'M', "NL_HIGH_RES_TEMPERATURE", 1, 253),
        (b'A', "NL_GEOLOCATION", 1, 94),
        (b'A', "NL_ACCURACY_ESTIMATION", 1, 671),
    ],
    references: LEVEL_2_REFERENCES,
    spares: 1,
};

const GOM_RR_2P: Facts = Facts {
    product: "GOM_RR__2P",
    sph_lines: &[
        "SPH_DESCRIPTOR=\"GOMOS EXTRACTED PROFILES    \"\n",
        "                                                   \n",
    ],
    sets: &[
        (b'M', "RR_LOCAL_SPECIES_DENSITY", 1, 81),
        (b'A', "RR_GEOLOCATION", 1, 94),
        (b'M', "RR_HIGH_RES_TEMPERATURE", 1, 253),
    ],
    references: &["LEVEL-1B_PRODUCT"],
    spares: 0,
};

const GOM_EXT_2P: Facts = Facts {
    product: "GOM_EXT_2P",
    sph_lines: &[
        "SPH_DESCRIPTOR=\"GOMOS RESIDUAL EXTINCTION   \"\n",
        OCCULTATION_LINES,
        LEVEL_2_LINES,
        "MEAN_WAVELENGTH=+0000495000<10-3nm>\n",
        "                                                  \n",
    ],
    sets: &[
        (b'G', "EXT_SUMMARY_QUALITY", 1, 153),
        (b'G', "EXT_NOM_WAV_ASSIGNMENT", 1, 9408),
        (b'M', "EXT_MDS", 1, 25709),
        (b'A', "EXT_ADS", 1, 4733),
    ],
    references: LEVEL_2_REFERENCES,
    spares: 1,
};

const GOM_LIM_1P: Facts = Facts {
    product: "GOM_LIM_1P",
    sph_lines: &[
        "SPH_DESCRIPTOR=\"GOMOS LIMB                  \"\n",
        OCCULTATION_LINES,
        "                                                  \n",
    ],
    sets: &[
        (b'G', "LIM_SUMMARY_QUALITY", 1, 76),
        (b'G', "LIM_OCCULTATION_DATA", 1, 1053),
        (b'G', "LIM_NOM_WAV_ASSIGNMENT", 1, 9408),
        (b'M', "LIM_MDS", 1, 28045),
        (b'A', "LIM_ADS", 1, 133),
    ],
    references: LEVEL_1B_REFERENCES,
    spares: 0,
};

const GOM_TRA_1P: Facts = Facts {
    product: "GOM_TRA_1P",
    sph_lines: &[
        "SPH_DESCRIPTOR=\"GOMOS LEVEL 1B              \"\n",
        OCCULTATION_LINES,
        "                                                  \n",
    ],
    sets: &[
        (b'G', "TRA_SUMMARY_QUALITY", 1, 76),
        (b'G', "TRA_OCCULTATION_DATA", 1, 16200),
        (b'G', "TRA_NOM_WAV_ASSIGNMENT", 1, 9408),
        (b'G', "TRA_REF_STAR_SPECTRUM", 1, 11684),
        (b'G', "TRA_REF_ATM_DENS_PROFILE", 1, 413),
        (b'M', "TRA_TRANSMISSION", 1, 36921),
        (b'M', "TRA_SATU_AND_SFA_DATA", 1, 453),
        (b'A', "TRA_AUXILIARY_DATA", 1, 4725),
        (b'A', "TRA_GEOLOCATION", 2, 2585),
    ],
    references: LEVEL_1B_REFERENCES,
    spares: 0,
};

const GOM_PR1_AX: Facts = Facts {
    product: "GOM_PR1_AX",
    sph_lines: &[
        "SPH_DESCRIPTOR=\"GOMOS LEVEL 1B CONFIG       \"\n",
        "                                                   \n",
    ],
    sets: &[(b'G', "PR1_GENERAL", 1, 346), (b'G', "PR1_ATMOSPHERE", 1, 244)],
    references: &[],
    spares: 0,
};

const SCI_RV_2P: Facts = Facts {
    product: "SCI_RV__2P",
    sph_lines: &[
        "SPH_DESCRIPTOR=\"SCI_RV__2P SPECIFIC HEADER  \"\n",
        SLICE_LINES,
        "FITTING_ERROR_SUM=\"GOOD\"\n",
        "DOAS_FITTING_WINDOW_0=\" 325- 335\"\n",
    ],
    sets: &[(b'A', "GEOLOCATION", 5, 47), (b'M', "O3_VERTICAL_COLUMN", 5, 23)],
    references: &["SCI_NL__2P"],
    spares: 0,
};

const SCI_NL_1P: Facts = Facts {
    product: "SCI_NL__1P",
    sph_lines: &[
        "SPH_DESCRIPTOR=\"SCI_NL__1P SPECIFIC HEADER  \"\n",
        SLICE_LINES,
        "KEY_DATA_VERSION=\"01.25\"\n",
        "M_FACTOR_VERSION=\"01.25\"\n",
        "SPECTRAL_CAL_CHECK_SUM=\"GOOD\"\n",
        "SATURATED_PIXEL=\"FAIR\"\n",
        "DEAD_PIXEL=\"BAD \"\n",
        "DARK_CHECK_SUM=      \n",
        "NO_OF_NADIR_STATES=+025\n",
        "NO_OF_LIMB_STATES=+025\n",
        "NO_OF_OCCULTATION_STATES=+001\n",
        "NO_OF_MONI_STATES=+002\n",
        "NO_OF_NOPROC_STATES=+003\n",
        "COMP_DARK_STATES=    \n",
        "INCOMP_DARK_STATES=    \n",
        "    \n",
    ],
    sets: &[
        (b'A', "SUMMARY_QUALITY", 7, 182),
        (b'A', "GEOLOCATION", 7, 45),
        (b'G', "INSTRUMENT_PARAMS", 1, 382),
        (b'G', "LEAKAGE_CONSTANT", 0, 163952),
        (b'G', "LEAKAGE_VARIABLE", 0, 90228),
        (b'G', "PPG_ETALON", 0, 139264),
        (b'G', "SPECTRAL_BASE", 0, 32768),
        (b'G', "SPECTRAL_CALIBRATION", 2, 372),
        (b'G', "SUN_REFERENCE", 0, 163942),
        (b'G', "POL_SENS_NADIR", 0, 65540),
        (b'G', "POL_SENS_LIMB", 0, 65544),
        (b'G', "POL_SENS_OCC", 0, 65544),
        (b'G', "RAD_SENS_NADIR", 0, 32772),
        (b'G', "RAD_SENS_LIMB", 0, 32776),
        (b'G', "RAD_SENS_OCC", 0, 32776),
        (b'G', "ERRORS_ON_KEY_DATA", 0, 294912),
        (b'G', "SLIT_FUNCTION", 40, 11),
        (b'G', "SMALL_AP_SLIT_FUNCTION", 40, 11),
        (b'A', "STATES", 0, 0),
        (b'A', "PMD_PACKETS", 0, 6833),
        (b'A', "AUXILIARY_PACKETS", 1, 1679),
        (b'A', "NEW_LEAKAGE", 0, 164021),
        (b'A', "DARK_AVERAGE", 0, 131253),
        (b'A', "NEW_PPG_ETALON", 0, 172045),
        (b'A', "NEW_SPECTRAL_CALIBRATION", 0, 33257),
        (b'A', "NEW_SUN_REFERENCE", 0, 163928),
        (b'M', "NADIR", 0, 0),
        (b'M', "LIMB", 0, 0),
        (b'M', "OCCULTATION", 0, 0),
        (b'M', "MONITORING", 0, 0),
    ],
    references: &[
        "LEVEL_0_PRODUCT",
        "LEAKAGE_FILE",
        "PPG_ETALON_FILE",
        "SPECTRAL_FILE",
        "SUN_REF_FILE",
        "KEY_DATA_FILE",
        "M_FACTOR_FILE",
        "INIT_FILE",
        "ORBIT_FILE",
        "ATTITUDE_FILE",
    ],
    spares: 1,
};

/// The states of the SCI_NL__1P built here.
const STATES: [StateDescription; 7] = [
    StateDescription::new(0, 1, 3, 40),
    StateDescription::new(0, 2, 2, 55),
    StateDescription::new(1, 1, 7, 99),
    StateDescription::new(0, 1, 2, 25),
    StateDescription::new(0, 3, 1, 60),
    StateDescription::new(0, 4, 2, 33),
    StateDescription::new(0, 2, 0, 0),
];

/// An entry of the catalogue: empty sets are not used, R entries name a file that is missing.
fn described_entry(set_type: u8, name: &str, count: usize, record_size: usize) -> EntryDescription {
    let mut entry = EntryDescription::records(set_type, name, count, record_size);
    if set_type == b'R' {
        entry.filename = b"MISSING".to_vec();
    } else if count == 0 {
        entry.filename = b"NOT USED".to_vec();
        entry.record_size = Some(Number::from(0));
    } else {
        entry.filename = b"ATTACHED".to_vec();
    }
    entry
}

fn described(facts: &Facts) -> Description {
    let sets = facts.sets.iter();
    let sets = sets.map(|&(set_type, name, count, size)| described_entry(set_type, name, count, size));
    let references = facts.references.iter().map(|name| described_entry(b'R', name, 0, 0));
    let spares = std::iter::repeat_with(EntryDescription::spare).take(facts.spares);
    let mut description = Description::new(sets.chain(references).chain(spares).collect());
    description.sph_lines = facts.sph_lines.concat().into_bytes();
    describe_header(&mut description, facts.product);
    description
}

/// Main header values of the form that source documents show.
fn describe_header(description: &mut Description, product: &str) {
    description
        .set_text("PRODUCT", &format!("{product}NACR20070627_100000_000060002059_00123_27863_0001.N1"));
    description.set_single("PROC_STAGE", b'N');
    description.set_text("REF_DOC", "PO-RS-MDA-GS-2009_10_3K");
    description.set_text("PROC_TIME", "28-JUN-2007 01:02:03.456789");
    description.set_text("SENSING_START", "27-JUN-2007 10:00:00.000000");
    description.set_text("SENSING_STOP", "27-JUN-2007 11:40:00.000000");
    description.set_single("PHASE", b'2');
    description.set_number("CYCLE", 59);
    description.set_number("REL_ORBIT", 123);
    description.set_number("ABS_ORBIT", 27863);
    description.set_number("DELTA_UT1", -160_123);
    description.set_number("X_POSITION", -7_123_456_789);
    description.set_number("Z_VELOCITY", 7_377_123_456);
    description.set_text("VECTOR_SOURCE", "FP");
    description.set_number("CLOCK_STEP", 3_906_249_800);
}

/// Puts the states and the four variable sets they describe into a SCI_NL__1P.
fn attach_states(description: &mut Description, states: &[StateDescription]) {
    for entry in &mut description.entries {
        let kind = match entry.name.as_slice() {
            b"STATES" => {
                *entry = EntryDescription::states(states);
                continue;
            }
            b"NADIR" => 1,
            b"LIMB" => 2,
            b"OCCULTATION" => 3,
            b"MONITORING" => 4,
            _ => continue,
        };
        let name = String::from_utf8_lossy(&entry.name).into_owned();
        *entry = EntryDescription::filled_by(states, kind, &name);
    }
}

/// Puts the nodes of the ray tracing grid into TRA_GEOLOCATION: latitude, longitude and altitude of node
/// n at 161, 761 and 1361 + 4n.
fn trace_rays(description: &mut Description) {
    for entry in description.entries.iter_mut().filter(|entry| entry.name == b"TRA_GEOLOCATION") {
        for record in entry.data.chunks_exact_mut(2585) {
            for node in 0..150 {
                let number = node as i32;
                let latitude = (45_000_000 - 12_345 * number).to_be_bytes();
                let longitude = (-12_000_000 + 54_321 * number).to_be_bytes();
                let altitude = (12_000_001 - 70_007 * number).to_be_bytes();
                for (start, bytes) in [(161, latitude), (761, longitude), (1361, altitude)] {
                    record[start + 4 * node..start + 4 * node + 4].copy_from_slice(&bytes);
                }
            }
        }
    }
}

/// The description of a product of the catalogue.
pub(super) fn catalogue_description(name: &str) -> Option<Description> {
    let all = [
        &GOM_NL_2P,
        &GOM_RR_2P,
        &GOM_EXT_2P,
        &GOM_LIM_1P,
        &GOM_TRA_1P,
        &GOM_PR1_AX,
        &SCI_RV_2P,
        &SCI_NL_1P,
    ];
    let facts = all.into_iter().find(|facts| facts.product == name)?;
    let mut description = described(facts);
    attach_states(&mut description, &STATES);
    trace_rays(&mut description);
    observe_star(&mut description);
    Some(description)
}

/// A SCI_NL__1P with 1,000 states: the built ones' again and again.
pub(super) fn thousand_states() -> Description {
    let states: Vec<StateDescription> = STATES.iter().copied().cycle().take(1000).collect();
    let mut description = described(&SCI_NL_1P);
    attach_states(&mut description, &states);
    description
}
