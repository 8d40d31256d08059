//! A stand-in for the chrono names that the original files touch. An instant is
//! i64 nanoseconds since 1970, a duration i128 nanoseconds.
use std::marker::PhantomData;
use std::ops::{Add, AddAssign, Sub};
#[derive(Clone, Copy, Debug, PartialEq, Eq, PartialOrd, Ord)]
pub struct Utc;
#[derive(Clone, Copy, Debug, PartialEq, Eq, PartialOrd, Ord)]
pub struct DateTime<Z> {
    ns: i128,
    z: PhantomData<Z>,
}
#[derive(Clone, Copy, Debug, PartialEq, Eq, PartialOrd, Ord)]
pub struct Duration(i128);
impl Duration {
    pub fn days(d: i64) -> Self {
        Duration(d as i128 * 86_400_000_000_000)
    }
    pub fn seconds(s: i64) -> Self {
        Duration(s as i128 * 1_000_000_000)
    }
    pub fn microseconds(u: i64) -> Self {
        Duration(u as i128 * 1000)
    }
    /// Whole seconds, toward zero, as chrono's `num_seconds`.
    pub fn num_seconds(&self) -> i64 {
        (self.0 / 1_000_000_000) as i64
    }
}
impl Add for Duration {
    type Output = Duration;
    fn add(self, o: Duration) -> Duration {
        Duration(self.0 + o.0)
    }
}
impl<Z> Sub for DateTime<Z> {
    type Output = Duration;
    fn sub(self, o: Self) -> Duration {
        Duration(self.ns - o.ns)
    }
}
impl<Z> AddAssign<Duration> for DateTime<Z> {
    fn add_assign(&mut self, d: Duration) {
        self.ns += d.0
    }
}
impl DateTime<Utc> {
    pub fn from_timestamp_nanos(ns: i64) -> Self {
        DateTime { ns: ns as i128, z: PhantomData }
    }
    pub fn timestamp_nanos_opt(&self) -> Option<i64> {
        i64::try_from(self.ns).ok()
    }
    pub fn signed_duration_since(self, o: Self) -> Duration {
        self - o
    }
    pub fn checked_sub_signed(self, d: Duration) -> Option<Self> {
        Some(DateTime { ns: self.ns - d.0, z: PhantomData })
    }
    pub fn timestamp(&self) -> i64 {
        self.ns.div_euclid(1_000_000_000) as i64
    }
    pub fn timestamp_subsec_nanos(&self) -> u32 {
        self.ns.rem_euclid(1_000_000_000) as u32
    }
    pub fn timestamp_subsec_micros(&self) -> u32 {
        self.timestamp_subsec_nanos() / 1000
    }
    pub fn to_rfc3339(&self) -> String {
        format!("{}ns", self.ns)
    }
    pub fn from_naive_utc_and_offset(n: NaiveDateTime, _: Utc) -> Self {
        DateTime { ns: n.0, z: PhantomData }
    }
    fn civil(&self) -> (i32, u32, u32) {
        let z = self.timestamp().div_euclid(86400) + 719468;
        let era = z.div_euclid(146097);
        let doe = z.rem_euclid(146097);
        let yoe = (doe - doe / 1460 + doe / 36524 - doe / 146096) / 365;
        let doy = doe - (365 * yoe + yoe / 4 - yoe / 100);
        let mp = (5 * doy + 2) / 153;
        let d = doy - (153 * mp + 2) / 5 + 1;
        let m = if mp < 10 { mp + 3 } else { mp - 9 };
        ((yoe + era * 400 + (m <= 2) as i64) as i32, m as u32, d as u32)
    }
}
pub trait Datelike {
    fn year(&self) -> i32;
    fn month(&self) -> u32;
    fn day(&self) -> u32;
}
impl Datelike for DateTime<Utc> {
    fn year(&self) -> i32 {
        self.civil().0
    }
    fn month(&self) -> u32 {
        self.civil().1
    }
    fn day(&self) -> u32 {
        self.civil().2
    }
}
pub trait Timelike {
    fn hour(&self) -> u32;
    fn minute(&self) -> u32;
    fn second(&self) -> u32;
}
impl Timelike for DateTime<Utc> {
    fn hour(&self) -> u32 {
        (self.timestamp().rem_euclid(86400) / 3600) as u32
    }
    fn minute(&self) -> u32 {
        (self.timestamp().rem_euclid(3600) / 60) as u32
    }
    fn second(&self) -> u32 {
        self.timestamp().rem_euclid(60) as u32
    }
}
pub struct NaiveDate(i64);
impl NaiveDate {
    pub fn from_ymd_opt(y: i32, m: u32, d: u32) -> Option<Self> {
        let y = y as i64 - (m <= 2) as i64;
        let era = y.div_euclid(400);
        let yoe = y.rem_euclid(400);
        let doy = (153 * (if m > 2 { m as i64 - 3 } else { m as i64 + 9 }) + 2) / 5 + d as i64 - 1;
        Some(NaiveDate(era * 146097 + yoe * 365 + yoe / 4 - yoe / 100 + doy - 719468))
    }
}
pub struct NaiveTime(i128);
impl NaiveTime {
    pub fn from_hms_micro_opt(h: u32, m: u32, s: u32, u: u32) -> Option<Self> {
        Some(NaiveTime(((h * 3600 + m * 60 + s) as i128 * 1_000_000 + u as i128) * 1000))
    }
}
pub struct NaiveDateTime(i128);
impl NaiveDateTime {
    pub fn new(d: NaiveDate, t: NaiveTime) -> Self {
        NaiveDateTime(d.0 as i128 * 86_400_000_000_000 + t.0)
    }
}
