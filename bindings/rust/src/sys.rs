//! The C names as include/wilfnusk.h documents them.
use std::os::raw::c_double;

/// A window record, as the calls for records write it: 48 bytes, 8 per field.
#[repr(C)]
#[derive(Clone, Copy, Debug, Default, PartialEq)]
pub struct Window {
    /// First and last sample number.
    pub first: u64,
    pub last: u64,
    /// Their times, in nanoseconds.
    pub first_time: i64,
    pub last_time: i64,
    pub severity: f64,
    /// 1 if the window ends with the final sample because the data ended, else 0.
    pub is_last: u64,
}

/// Declares the calls with a plan: the plan's parameters, then the call's own.
macro_rules! with_plan {
    ($($name:ident($($p:ident: $t:ty),*);)*) => {
        extern "C" {
            $(pub fn $name(
                targets: *const f64, targets_len: usize,
                suns: *const f64, suns_len: usize,
                observers: *const f64, observers_len: usize,
                tolerances: *const f64, tolerances_len: usize,
                has_roll: u64, roll_deg: c_double,
                panel_x: c_double, panel_y: c_double, panel_z: c_double,
                $($p: $t),*
            ) -> i64;)*
        }
    };
}

with_plan! {
    wilfnusk_named_values(out: *mut f64, out_len: usize);
    wilfnusk_in_constraint_batch(mask: *mut u8, mask_len: usize);
    wilfnusk_in_constraint_batch_at_roll(fixed: u64, roll_at_deg: f64, mask: *mut u8, mask_len: usize);
    wilfnusk_constrained_at_every_roll(n: u64, mask: *mut u8, mask_len: usize);
    wilfnusk_evaluate(target: u64, mask: *mut u8, mask_len: usize, severities: *mut f64, severities_len: usize);
    wilfnusk_field_of_regard_violated_batch(time: u64, n: u64, mask: *mut u8, mask_len: usize);
    wilfnusk_field_of_regard_violated_at_roll(time: u64, roll_at_deg: f64, mask: *mut u8, mask_len: usize);
    wilfnusk_begin(n: u64, journal: *mut u8, journal_len: usize, used: u64);
    wilfnusk_work(n: u64, chunk: u64, journal: *mut u8, journal_len: usize, used: u64);
    wilfnusk_work_range(n: u64, from: u64, to: u64, journal: *mut u8, journal_len: usize, used: u64, stopped: *mut u64);
    wilfnusk_recover(n: u64, journal: *const u8, journal_len: usize, used: u64);
    wilfnusk_collect(n: u64, journal: *const u8, journal_len: usize, used: u64, mask: *mut u8, mask_len: usize);
    wilfnusk_begin_rolls(rolls: *const f64, rolls_len: usize, journal: *mut u8, journal_len: usize, used: u64);
    wilfnusk_work_rolls(rolls: *const f64, rolls_len: usize, chunk: u64, journal: *mut u8, journal_len: usize, used: u64);
    wilfnusk_work_range_rolls(rolls: *const f64, rolls_len: usize, from: u64, to: u64, journal: *mut u8, journal_len: usize, used: u64, stopped: *mut u64);
    wilfnusk_recover_rolls(rolls: *const f64, rolls_len: usize, journal: *const u8, journal_len: usize, used: u64);
    wilfnusk_collect_rolls(rolls: *const f64, rolls_len: usize, journal: *const u8, journal_len: usize, used: u64, mask: *mut u8, mask_len: usize);
}

/// Declares the calls that write a plan.
macro_rules! writes_plan {
    ($($name:ident();)*) => {
        extern "C" {
            $(pub fn $name(
                targets: u64, times: u64, n: u64,
                target_numbers: *mut f64, target_numbers_len: usize,
                suns: *mut f64, suns_len: usize,
                observers: *mut f64, observers_len: usize,
                tolerances: *mut f64, tolerances_len: usize,
                panel: *mut f64, panel_len: usize,
            ) -> i64;)*
        }
    };
}

writes_plan! {
    wilfnusk_costliest_plan();
    wilfnusk_cheapest_plan();
}

extern "C" {
    pub fn wilfnusk_sqrt(x: c_double) -> c_double;
    pub fn wilfnusk_atan2(y: c_double, z: c_double) -> c_double;
    pub fn wilfnusk_sin(r: c_double) -> c_double;
    pub fn wilfnusk_cos(r: c_double) -> c_double;
    pub fn wilfnusk_circular_diff_deg(a: c_double, b: c_double) -> c_double;
    pub fn wilfnusk_cell(
        target_x: c_double,
        target_y: c_double,
        target_z: c_double,
        sun_x: c_double,
        sun_y: c_double,
        sun_z: c_double,
        observer_x: c_double,
        observer_y: c_double,
        observer_z: c_double,
        panel_x: c_double,
        panel_y: c_double,
        panel_z: c_double,
        roll: *mut f64,
    ) -> i64;
    pub fn wilfnusk_radec_to_unit_vectors_batch(
        ra: *const f64,
        ra_len: usize,
        dec: *const f64,
        dec_len: usize,
        out: *mut f64,
        out_len: usize,
    ) -> i64;
    pub fn wilfnusk_cost(targets: u64, times: u64, n: u64, out: *mut u64, out_len: usize) -> i64;
    pub fn wilfnusk_violation_windows(
        mask: *const u8,
        mask_len: usize,
        times: *const i64,
        times_len: usize,
        severities: *const f64,
        severities_len: usize,
        first: *mut u64,
        first_len: usize,
        last: *mut u64,
        last_len: usize,
        first_time: *mut i64,
        first_time_len: usize,
        last_time: *mut i64,
        last_time_len: usize,
        severity: *mut f64,
        severity_len: usize,
        is_last: *mut u8,
        is_last_len: usize,
    ) -> i64;
    pub fn wilfnusk_visibility_windows(
        mask: *const u8,
        mask_len: usize,
        times: *const i64,
        times_len: usize,
        first: *mut u64,
        first_len: usize,
        last: *mut u64,
        last_len: usize,
        first_time: *mut i64,
        first_time_len: usize,
        last_time: *mut i64,
        last_time_len: usize,
        severity: *mut f64,
        severity_len: usize,
        is_last: *mut u8,
        is_last_len: usize,
    ) -> i64;
    pub fn wilfnusk_expand(
        first_time: *const i64,
        first_time_len: usize,
        last_time: *const i64,
        last_time_len: usize,
        times: *const i64,
        times_len: usize,
        mask: *mut u8,
        mask_len: usize,
    ) -> i64;
    pub fn wilfnusk_total_violation_duration(
        first_time: *const i64,
        first_time_len: usize,
        last_time: *const i64,
        last_time_len: usize,
        seconds: *mut f64,
    ) -> i64;
    pub fn wilfnusk_violation_records(
        mask: *const u8,
        mask_len: usize,
        times: *const i64,
        times_len: usize,
        severities: *const f64,
        severities_len: usize,
        out: *mut Window,
        out_len: usize,
    ) -> i64;
    pub fn wilfnusk_visibility_records(
        mask: *const u8,
        mask_len: usize,
        times: *const i64,
        times_len: usize,
        out: *mut Window,
        out_len: usize,
    ) -> i64;
}

#[cfg(test)]
mod tests {
    use super::*;
    use std::mem::transmute;

    #[test]
    fn a_record_is_six_words() {
        // What the library writes into plain words: two records, and nothing beyond them.
        let (mask, times, severities) = ([0u8, 1, 0, 1, 1], [0i64, 10, 20, 30, -40], [0.0, 1.5, 0.0, 2.0, 3.0]);
        let mut words = [[!0u64; 6]; 3];
        let answer = unsafe {
            wilfnusk_violation_records(mask.as_ptr(), 5, times.as_ptr(), 5, severities.as_ptr(), 5, words.as_mut_ptr().cast(), 3)
        };
        assert_eq!(answer, 2);
        assert_eq!(words, [[1, 1, 10, 10, 1.5f64.to_bits(), 0], [3, 4, 30, -40i64 as u64, 3f64.to_bits(), 1], [!0; 6]]);
        // The same words as the struct, which `transmute` takes only if it has 48 bytes.
        let record: Window = unsafe { transmute(words[1]) };
        assert_eq!(record, Window { first: 3, last: 4, first_time: 30, last_time: -40, severity: 3.0, is_last: 1 });
    }
}
