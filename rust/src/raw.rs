//! The exports as they stand in the archive. `c/simmerstoat.h` says what each one means.
//!
//! A reply is 0, or a refusal's number with its place above the lowest eight bits. Each pointer with a length must be good for that many
//! doubles, and each other pointer for one record; a null pointer is fine where its length is 0. Lengths, whole numbers and counts are 64
//! bits wide on every processor.

/// The reply to a number that names no basis, no rule of the ends or no method; `simmerstoat_is_len_ok` answers it as a `u8`.
pub const NO_BASIS: u32 = 255;

/// Set in a reply of `simmerstoat_depth_at` where the table of depths is meant.
pub const OF_DEPTHS: u32 = 1 << 31;

extern "C" {
    pub fn simmerstoat_version() -> u32;

    pub fn simmerstoat_is_len_ok(basis: u8, n: u64) -> u8;

    pub fn simmerstoat_spline(basis: u8, x: f64, knots: *const f64, n: u64, value: *mut f64) -> u32;

    pub fn simmerstoat_spline_segment(basis: u8, x: f64, cv: *const f64, n: u64, value: *mut f64) -> u32;

    pub fn simmerstoat_spline_inverse(
        basis: u8,
        y: f64,
        knots: *const f64,
        n: u64,
        check: bool,
        place: *mut [f64; 4],
        whole: *mut [u64; 3],
    ) -> u32;

    pub fn simmerstoat_spline_inverse_with(
        basis: u8,
        y: f64,
        knots: *const f64,
        n: u64,
        check: bool,
        limit: u16,
        precision: f64,
        place: *mut [f64; 4],
        whole: *mut [u64; 3],
    ) -> u32;

    pub fn simmerstoat_spline_inverse_by(
        basis: u8,
        y: f64,
        knots: *const f64,
        n: u64,
        check: bool,
        limit: u16,
        precision: f64,
        ends: u8,
        method: u8,
        place: *mut [f64; 4],
        whole: *mut [u64; 3],
    ) -> u32;

    pub fn simmerstoat_most_evaluations(basis: u8, n: u64, limit: u16, ends: u8, method: u8, most: *mut u64) -> u32;

    pub fn simmerstoat_spline_inverse_segment(
        basis: u8,
        y: f64,
        cv: *const f64,
        n: u64,
        place: *mut [f64; 4],
        whole: *mut [u64; 3],
    ) -> u32;

    pub fn simmerstoat_spline_inverse_segment_with(
        basis: u8,
        y: f64,
        cv: *const f64,
        n: u64,
        limit: u16,
        precision: f64,
        place: *mut [f64; 4],
        whole: *mut [u64; 3],
    ) -> u32;

    pub fn simmerstoat_spline_inverse_segment_by(
        basis: u8,
        y: f64,
        cv: *const f64,
        n: u64,
        limit: u16,
        precision: f64,
        method: u8,
        place: *mut [f64; 4],
        whole: *mut [u64; 3],
    ) -> u32;

    pub fn simmerstoat_spline_inverse_steady(
        basis: u8,
        y: f64,
        knots: *const f64,
        n: u64,
        check: bool,
        place: *mut [f64; 4],
        whole: *mut [u64; 3],
    ) -> u32;

    pub fn simmerstoat_spline_inverse_segment_steady(
        basis: u8,
        y: f64,
        cv: *const f64,
        n: u64,
        place: *mut [f64; 4],
        whole: *mut [u64; 3],
    ) -> u32;

    pub fn simmerstoat_convert_segment(from: u8, to: u8, cv: *const f64, n: u64, out: *mut f64, room: u64) -> u32;

    pub fn simmerstoat_convert_spline(
        from: u8,
        to: u8,
        knots: *const f64,
        n: u64,
        out: *mut f64,
        room: u64,
        written: *mut u64,
    ) -> u32;

    pub fn simmerstoat_convert_spline_strict(
        from: u8,
        to: u8,
        knots: *const f64,
        n: u64,
        allowance: f64,
        out: *mut f64,
        room: u64,
        written: *mut u64,
    ) -> u32;

    pub fn simmerstoat_depth_at(
        times_basis: u8,
        times: *const f64,
        n: u64,
        depths_basis: u8,
        depths: *const f64,
        m: u64,
        y: f64,
        limit: u16,
        precision: f64,
        depth: *mut f64,
        place: *mut [f64; 4],
        whole: *mut [u64; 4],
    ) -> u32;

    pub fn simmerstoat_check_claim(
        basis: u8,
        y: f64,
        segment: u64,
        x: f64,
        precision: f64,
        knots: *const f64,
        n: u64,
        holds: *mut bool,
    ) -> u32;

    pub fn simmerstoat_table_spline(
        basis: u8,
        span: u32,
        x: f64,
        knots: *const f64,
        n: u64,
        value: *mut f64,
    ) -> u32;

    pub fn simmerstoat_table_spline_inverse(
        basis: u8,
        span: u32,
        y: f64,
        knots: *const f64,
        n: u64,
        check: bool,
        place: *mut [f64; 4],
        whole: *mut [u64; 4],
    ) -> u32;

    pub fn simmerstoat_table_spline_inverse_by(
        basis: u8,
        span: u32,
        y: f64,
        knots: *const f64,
        n: u64,
        check: bool,
        limit: u16,
        precision: f64,
        ends: u8,
        method: u8,
        place: *mut [f64; 4],
        whole: *mut [u64; 4],
    ) -> u32;

    pub fn simmerstoat_table_spline_inverse_steady(
        basis: u8,
        span: u32,
        y: f64,
        knots: *const f64,
        n: u64,
        check: bool,
        place: *mut [f64; 4],
        whole: *mut [u64; 4],
    ) -> u32;

    pub fn simmerstoat_stopped(
        basis: u8,
        span: u32,
        y: f64,
        knots: *const f64,
        n: u64,
        check: bool,
        job: *mut u8,
        place: *mut [f64; 4],
        whole: *mut [u64; 4],
    ) -> u32;

    pub fn simmerstoat_table_convert_spline(
        from: u8,
        span: u32,
        to: u8,
        knots: *const f64,
        n: u64,
        out: *mut f64,
        room: u64,
        handed: *mut u32,
        written: *mut u64,
    ) -> u32;
    pub fn simmerstoat_table_convert_spline_strict(
        from: u8,
        span: u32,
        to: u8,
        knots: *const f64,
        n: u64,
        allowance: f64,
        out: *mut f64,
        room: u64,
        handed: *mut u32,
        written: *mut u64,
    ) -> u32;
}
