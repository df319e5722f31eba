//! The proved library as C sees it: the one place where its interface is declared for Rust.
//!
//! `.ci/interface` compares these declarations with the Rattle source and with the header for C: names, sizes, places, values,
//! arguments and results. What a call does, and what each number stands for, is told in the header, `include/cepnhoy.h`.

/// How many weights, load shapes, units and tariffs there are, and meters at most; how many words a row, a call in a list and the
/// totals of all tariffs take. Of the slice of running cells, how many words are used, and how many of them, the first ones, are cells.
pub const CLASSES: usize = 24;
pub const CATEGORIES: usize = 64;
pub const UNITS: usize = 32;
pub const TARIFFS: usize = 1_024;
pub const METERS_MAX: usize = 65_536;
pub const ROW_WORDS: usize = 3;
pub const CALL_WORDS: usize = 12;
pub const TOTALS_WORDS: usize = 4_096;
pub const SLICE_WORDS: usize = 836;
pub const CELL_WORDS: usize = 768;

/// The flag of the Take in the settings. With any other number there a book isn't well formed.
pub const TAKE_FLAG_UNSET: u32 = 0;
pub const TAKE_FLAG_SET: u32 = 1;

/// The kinds of call in a list, first of a call's words.
pub const KIND_REGISTER: u64 = 1;
pub const KIND_READING: u64 = 2;
pub const KIND_SHAPE: u64 = 3;
pub const KIND_WEIGHT: u64 = 4;
pub const KIND_TOLERANCE: u64 = 5;
pub const KIND_TAKE: u64 = 6;

/// The number of acceptance, and those of the refusals.
pub const ACCEPTED: u64 = 0;
pub const BOOK_ILL_FORMED: u64 = 1;
pub const ARGUMENT_OUT_OF_RANGE: u64 = 2;
pub const QUALITY_REFUSED: u64 = 3;
pub const METER_UNKNOWN: u64 = 4;
pub const ISSUE_NOT_ABOVE: u64 = 5;
pub const CAPACITY_REACHED: u64 = 6;
pub const VOLUMES_SHORT: u64 = 7;
pub const TAKE_UNSET: u64 = 8;
pub const SHAPE_OF_DEFAULT_MISSING: u64 = 9;
pub const WEIGHTED_BELOW_ONE: u64 = 10;
pub const TOLERANCE_EXCEEDED: u64 = 11;
pub const TOTALS_SHORT: u64 = 12;
pub const CELLS_SHORT: u64 = 13;
pub const LIST_MISSHAPEN: u64 = 19;

/// The ranges of a meter's MPAN and registration.
pub const MPAN_MIN: u64 = 1_000_000_000_000;
pub const MPAN_MAX: u64 = 9_999_999_999_999;
pub const SEGMENT_MAX: u64 = 2;
pub const DIRECTION_MAX: u64 = 1;
pub const STATUS_MAX: u64 = 2;
pub const UNIT_MAX: u64 = 31;
pub const CATEGORY_MAX: u64 = 63;
pub const LLF_MIN: u64 = 500;
pub const LLF_MAX: u64 = 2_000;
pub const NETWORK_MAX: u64 = 63;
pub const TARIFF_MAX: u64 = 1_023;

/// The ranges of a reading, some quality codes, and the word of a meter that has no reading.
pub const ISSUE_MIN: u64 = 1;
pub const ISSUE_MAX: u64 = 4_294_967_295;
pub const QUALITY_MAX: u64 = 20;
pub const CONSUMPTION_MAX: u64 = 10_000_000;
pub const QUALITY_AAE3: u64 = 6;
pub const QUALITY_E2: u64 = 9;
pub const QUALITY_E6: u64 = 13;
pub const QUALITY_E7: u64 = 14;
pub const QUALITY_ZE: u64 = 17;
pub const QUALITY_ZE3: u64 = 20;
pub const NO_READING: u64 = 0;

/// The ranges of the settings, and the number of a missing load shape.
pub const WEIGHT_MAX: u64 = 1_000;
pub const SHAPE_MAX: u64 = 10_000_000;
pub const SHAPE_MISSING: u64 = 4_294_967_295;
pub const TOLERANCE_MAX: u64 = 1_000;
pub const TAKE_MIN: i64 = -5_000_000_000;
pub const TAKE_MAX: i64 = 5_000_000_000;

/// The limits of the slice of running cells: what the sizes of all cells may add up to, and what a count or a waiting number may be.
pub const CELL_SIZES_MAX: u64 = 1_310_720_000_000_000;
pub const COUNT_MAX: i64 = 4_294_967_295;

#[repr(C)]
#[derive(Clone, Copy, Debug, PartialEq, Eq)]
pub struct Settings {
    pub meters: usize,
    pub weights: [u32; CLASSES],
    pub shapes: [u32; CATEGORIES],
    pub tolerance: u32,
    pub take_set: u32,
    pub take_wh: i64,
}

#[repr(C)]
#[derive(Clone, Copy, Debug, PartialEq, Eq)]
pub struct Registration {
    pub segment: u64,
    pub direction: u64,
    pub status: u64,
    pub base: u64,
    pub flag: u64,
    pub additional: u64,
    pub category: u64,
    pub llf: u64,
    pub network: u64,
    pub tariff: u64,
}

#[repr(C)]
#[derive(Clone, Copy, Debug, PartialEq, Eq)]
pub struct Reading {
    pub issue: u64,
    pub quality: u64,
    pub consumption: u64,
}

/// The number given, 0 for acceptance, and the settings afterwards.
#[repr(C)]
#[derive(Clone, Copy, Debug, PartialEq, Eq)]
pub struct Answer {
    pub number: u64,
    pub settings: Settings,
}

/// The number given, U in Wh, W in thousandths of a Wh, the four counts, and for each unit what rounding dropped of its losses, in
/// thousandths of a Wh, import less export. All but the number are 0 on a refusal.
#[repr(C)]
#[derive(Clone, Copy, Debug, PartialEq, Eq)]
pub struct Allocated {
    pub number: u64,
    pub unallocated: i64,
    pub weighted: i64,
    pub actual: u64,
    pub estimated: u64,
    pub defaulted: u64,
    pub idle: u64,
    pub droppings: [i64; UNITS],
}

#[repr(C)]
#[derive(Clone, Copy, Debug, PartialEq, Eq)]
pub struct AllocationAnswer {
    pub answer: Allocated,
    pub settings: Settings,
}

extern "C" {
    fn cepnhoy_fresh() -> Settings;
    fn cepnhoy_register(
        settings: Settings,
        rows: *mut u64,
        rows_length: usize,
        cells: *mut i64,
        cells_length: usize,
        mpan: u64,
        registration: Registration,
    ) -> Answer;
    fn cepnhoy_record_reading(
        settings: Settings,
        rows: *mut u64,
        rows_length: usize,
        cells: *mut i64,
        cells_length: usize,
        mpan: u64,
        reading: Reading,
    ) -> Answer;
    fn cepnhoy_set_shape(
        settings: Settings,
        rows: *const u64,
        rows_length: usize,
        cells: *mut i64,
        cells_length: usize,
        category: u64,
        wh: u64,
    ) -> Answer;
    fn cepnhoy_set_weight(
        settings: Settings,
        rows: *const u64,
        rows_length: usize,
        cells: *const i64,
        cells_length: usize,
        class: u64,
        thousandths: u64,
    ) -> Answer;
    fn cepnhoy_set_tolerance(
        settings: Settings,
        rows: *const u64,
        rows_length: usize,
        cells: *const i64,
        cells_length: usize,
        g: u64,
    ) -> Answer;
    fn cepnhoy_set_take(
        settings: Settings,
        rows: *const u64,
        rows_length: usize,
        cells: *const i64,
        cells_length: usize,
        wh: i64,
    ) -> Answer;
    fn cepnhoy_allocate(
        settings: Settings,
        rows: *const u64,
        rows_length: usize,
        cells: *const i64,
        cells_length: usize,
        volumes: *mut i64,
        volumes_length: usize,
    ) -> AllocationAnswer;
    fn cepnhoy_totals(
        settings: Settings,
        rows: *const u64,
        rows_length: usize,
        direction: u64,
        network: u64,
        totals: *mut u64,
        totals_length: usize,
    ) -> Answer;
    fn cepnhoy_make_calls(
        settings: Settings,
        rows: *mut u64,
        rows_length: usize,
        cells: *mut i64,
        cells_length: usize,
        calls: *const u64,
        calls_length: usize,
        numbers: *mut u64,
        numbers_length: usize,
    ) -> Answer;
    fn cepnhoy_settle_list(
        rows: *mut u64,
        rows_length: usize,
        cells: *mut i64,
        cells_length: usize,
        calls: *const u64,
        calls_length: usize,
        numbers: *mut u64,
        numbers_length: usize,
        volumes: *mut i64,
        volumes_length: usize,
    ) -> AllocationAnswer;
}

// Each function below is safe for all arguments. Every contract of the library holds on every input and has no `requires`; a
// slice is handed over as its own pointer and length, and the borrow keeps others from it while the call runs.

pub fn fresh() -> Settings {
    unsafe { cepnhoy_fresh() }
}

pub fn register(
    settings: Settings,
    rows: &mut [u64],
    cells: &mut [i64],
    mpan: u64,
    registration: Registration,
) -> Answer {
    unsafe {
        cepnhoy_register(settings, rows.as_mut_ptr(), rows.len(), cells.as_mut_ptr(), cells.len(), mpan, registration)
    }
}

pub fn record_reading(settings: Settings, rows: &mut [u64], cells: &mut [i64], mpan: u64, reading: Reading) -> Answer {
    unsafe {
        cepnhoy_record_reading(settings, rows.as_mut_ptr(), rows.len(), cells.as_mut_ptr(), cells.len(), mpan, reading)
    }
}

pub fn set_shape(settings: Settings, rows: &[u64], cells: &mut [i64], category: u64, wh: u64) -> Answer {
    unsafe { cepnhoy_set_shape(settings, rows.as_ptr(), rows.len(), cells.as_mut_ptr(), cells.len(), category, wh) }
}

pub fn set_weight(settings: Settings, rows: &[u64], cells: &[i64], class: u64, thousandths: u64) -> Answer {
    unsafe { cepnhoy_set_weight(settings, rows.as_ptr(), rows.len(), cells.as_ptr(), cells.len(), class, thousandths) }
}

pub fn set_tolerance(settings: Settings, rows: &[u64], cells: &[i64], g: u64) -> Answer {
    unsafe { cepnhoy_set_tolerance(settings, rows.as_ptr(), rows.len(), cells.as_ptr(), cells.len(), g) }
}

pub fn set_take(settings: Settings, rows: &[u64], cells: &[i64], wh: i64) -> Answer {
    unsafe { cepnhoy_set_take(settings, rows.as_ptr(), rows.len(), cells.as_ptr(), cells.len(), wh) }
}

pub fn allocate(settings: Settings, rows: &[u64], cells: &[i64], volumes: &mut [i64]) -> AllocationAnswer {
    unsafe {
        cepnhoy_allocate(
            settings,
            rows.as_ptr(),
            rows.len(),
            cells.as_ptr(),
            cells.len(),
            volumes.as_mut_ptr(),
            volumes.len(),
        )
    }
}

pub fn totals(settings: Settings, rows: &[u64], direction: u64, network: u64, totals: &mut [u64]) -> Answer {
    unsafe {
        cepnhoy_totals(settings, rows.as_ptr(), rows.len(), direction, network, totals.as_mut_ptr(), totals.len())
    }
}

pub fn make_calls(
    settings: Settings,
    rows: &mut [u64],
    cells: &mut [i64],
    calls: &[u64],
    numbers: &mut [u64],
) -> Answer {
    unsafe {
        cepnhoy_make_calls(
            settings,
            rows.as_mut_ptr(),
            rows.len(),
            cells.as_mut_ptr(),
            cells.len(),
            calls.as_ptr(),
            calls.len(),
            numbers.as_mut_ptr(),
            numbers.len(),
        )
    }
}

pub fn settle_list(
    rows: &mut [u64],
    cells: &mut [i64],
    calls: &[u64],
    numbers: &mut [u64],
    volumes: &mut [i64],
) -> AllocationAnswer {
    unsafe {
        cepnhoy_settle_list(
            rows.as_mut_ptr(),
            rows.len(),
            cells.as_mut_ptr(),
            cells.len(),
            calls.as_ptr(),
            calls.len(),
            numbers.as_mut_ptr(),
            numbers.len(),
            volumes.as_mut_ptr(),
            volumes.len(),
        )
    }
}
