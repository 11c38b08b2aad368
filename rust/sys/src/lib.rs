//! The calls that `include/seluvava.h` declares, for Rust. What each needs, changes and answers is said there. The
//! crate `seluvava` is the safe way to them.

// Clippy links nothing, so it may look at the code anywhere.
#[cfg(not(any(
    clippy,
    all(
        target_arch = "x86_64",
        target_os = "linux",
        target_pointer_width = "64"
    )
)))]
compile_error!("seluvava links an archive of proved code that exists for Linux on x86-64 alone");

/// What a cut answers.
#[repr(C)]
pub struct CutAnswer {
    pub number: u8,
    pub boxes: usize,
    pub rounds: usize,
}

/// What a comparison answers.
#[repr(C)]
pub struct CompareAnswer {
    pub number: u8,
    pub differ: usize,
    pub first: usize,
}

/// What the header of a PPM answers.
#[repr(C)]
pub struct PpmAnswer {
    pub number: u8,
    pub width: usize,
    pub height: usize,
    pub pixels: usize,
}

/// A session: the interval in force.
#[repr(C)]
#[derive(Clone, Copy)]
pub struct Session {
    pub interval: u32,
}

/// What begin, reload and replay answer.
#[repr(C)]
pub struct SessionAnswer {
    pub number: u8,
    pub session: Session,
}

// SAFETY: types and order are those of the header.
unsafe extern "C" {
    pub fn seluvava_version() -> u32;

    pub fn seluvava_bins(b1: usize, b2: usize, b3: usize) -> usize;

    pub fn seluvava_table_len(b1: usize, b2: usize, b3: usize) -> usize;

    pub fn seluvava_load(
        b1: usize,
        b2: usize,
        b3: usize,
        table: *mut u64,
        table_len: usize,
        colours: *const u8,
        colours_len: usize,
        weighted: bool,
        weights: *const u32,
        weights_len: usize,
    ) -> u8;

    pub fn seluvava_ppm_header(file: *const u8, file_len: usize) -> PpmAnswer;

    pub fn seluvava_load_ppm(
        b1: usize,
        b2: usize,
        b3: usize,
        table: *mut u64,
        table_len: usize,
        file: *const u8,
        file_len: usize,
    ) -> u8;

    pub fn seluvava_merge(
        b1: usize,
        b2: usize,
        b3: usize,
        table: *mut u64,
        table_len: usize,
        second: *const u64,
        second_len: usize,
    ) -> u8;

    pub fn seluvava_compare(
        b1: usize,
        b2: usize,
        b3: usize,
        first: *const u64,
        first_len: usize,
        second: *const u64,
        second_len: usize,
        differences: *mut i64,
        differences_len: usize,
    ) -> CompareAnswer;

    pub fn seluvava_rescue(
        b1: usize,
        b2: usize,
        b3: usize,
        table: *mut u64,
        table_len: usize,
        reasons: *mut u8,
        reasons_len: usize,
    ) -> u8;

    pub fn seluvava_begin(interval: u32) -> SessionAnswer;

    pub fn seluvava_reload(session: Session, interval: u32) -> SessionAnswer;

    pub fn seluvava_batch(
        session: Session,
        interval: u32,
        b1: usize,
        b2: usize,
        b3: usize,
        table: *mut u64,
        table_len: usize,
        colours: *const u8,
        colours_len: usize,
        weighted: bool,
        weights: *const u32,
        weights_len: usize,
    ) -> u8;

    pub fn seluvava_replay(
        first: u32,
        b1: usize,
        b2: usize,
        b3: usize,
        table: *mut u64,
        table_len: usize,
        entries: *const u32,
        entries_len: usize,
        colours: *const u8,
        colours_len: usize,
        weights: *const u32,
        weights_len: usize,
        answers: *mut u8,
        answers_len: usize,
    ) -> SessionAnswer;

    pub fn seluvava_cut(
        b1: usize,
        b2: usize,
        b3: usize,
        k: usize,
        table: *const u64,
        table_len: usize,
        work: *mut u64,
        work_len: usize,
        palette: *mut u8,
        palette_len: usize,
        counts: *mut u32,
        counts_len: usize,
        remainders: *mut u32,
        remainders_len: usize,
        map: *mut u8,
        map_len: usize,
        boxes: *mut u8,
        boxes_len: usize,
        spreads: *mut f64,
        spreads_len: usize,
    ) -> CutAnswer;

    pub fn seluvava_cut_slowly(
        b1: usize,
        b2: usize,
        b3: usize,
        k: usize,
        table: *const u64,
        table_len: usize,
        palette: *mut u8,
        palette_len: usize,
        counts: *mut u32,
        counts_len: usize,
        remainders: *mut u32,
        remainders_len: usize,
        map: *mut u8,
        map_len: usize,
        boxes: *mut u8,
        boxes_len: usize,
        spreads: *mut f64,
        spreads_len: usize,
    ) -> CutAnswer;

    pub fn seluvava_narrow_load(
        b1: usize,
        b2: usize,
        b3: usize,
        sums: *mut u32,
        sums_len: usize,
        squares: *mut u64,
        squares_len: usize,
        colours: *const u8,
        colours_len: usize,
        weighted: bool,
        weights: *const u32,
        weights_len: usize,
    ) -> u8;

    pub fn seluvava_narrow_merge(
        b1: usize,
        b2: usize,
        b3: usize,
        sums: *mut u32,
        sums_len: usize,
        squares: *mut u64,
        squares_len: usize,
        second_sums: *const u32,
        second_sums_len: usize,
        second_squares: *const u64,
        second_squares_len: usize,
    ) -> u8;

    pub fn seluvava_narrow_cut(
        b1: usize,
        b2: usize,
        b3: usize,
        k: usize,
        sums: *const u32,
        sums_len: usize,
        squares: *const u64,
        squares_len: usize,
        work_sums: *mut u32,
        work_sums_len: usize,
        work_squares: *mut u64,
        work_squares_len: usize,
        palette: *mut u8,
        palette_len: usize,
        counts: *mut u32,
        counts_len: usize,
        remainders: *mut u32,
        remainders_len: usize,
        map: *mut u8,
        map_len: usize,
        boxes: *mut u8,
        boxes_len: usize,
        spreads: *mut f64,
        spreads_len: usize,
    ) -> CutAnswer;

    pub fn seluvava_narrow_cut_slowly(
        b1: usize,
        b2: usize,
        b3: usize,
        k: usize,
        sums: *const u32,
        sums_len: usize,
        squares: *const u64,
        squares_len: usize,
        palette: *mut u8,
        palette_len: usize,
        counts: *mut u32,
        counts_len: usize,
        remainders: *mut u32,
        remainders_len: usize,
        map: *mut u8,
        map_len: usize,
        boxes: *mut u8,
        boxes_len: usize,
        spreads: *mut f64,
        spreads_len: usize,
    ) -> CutAnswer;

    pub fn seluvava_widen(
        b1: usize,
        b2: usize,
        b3: usize,
        sums: *const u32,
        sums_len: usize,
        squares: *const u64,
        squares_len: usize,
        table: *mut u64,
        table_len: usize,
    ) -> u8;

    pub fn seluvava_map(
        b1: usize,
        b2: usize,
        b3: usize,
        map: *const u8,
        map_len: usize,
        palette_colours: usize,
        frame: *const u8,
        frame_len: usize,
        indices: *mut u8,
        indices_len: usize,
        first: usize,
        pixels: usize,
    ) -> u8;

    pub fn seluvava_paint(
        b1: usize,
        b2: usize,
        b3: usize,
        map: *const u8,
        map_len: usize,
        palette: *const u8,
        palette_len: usize,
        frame: *mut u8,
        frame_len: usize,
        first: usize,
        pixels: usize,
    ) -> u8;

    pub fn seluvava_nearest(
        palette: *const u8,
        palette_len: usize,
        answers: *mut u8,
        answers_len: usize,
    ) -> u8;
}
