//! Types only: no Julian date is ever asked for by the oracle.
#[derive(Clone, Copy)]
pub struct Duration(i128);
impl Duration {
    pub fn from_total_nanoseconds(n: i128) -> Self {
        Duration(n)
    }
    pub fn total_nanoseconds(&self) -> i128 {
        self.0
    }
}
#[derive(Clone, Copy)]
pub struct Epoch;
impl Epoch {
    pub fn from_unix_duration(_: Duration) -> Self {
        Epoch
    }
    pub fn leap_seconds(&self, _: bool) -> Option<f64> {
        unimplemented!()
    }
    pub fn to_mjd_utc_days(&self) -> f64 {
        unimplemented!()
    }
    pub fn to_jde_tt_duration(&self) -> Duration {
        unimplemented!()
    }
    pub fn to_jde_utc_duration(&self) -> Duration {
        unimplemented!()
    }
}
