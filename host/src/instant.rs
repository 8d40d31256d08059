//! RFC 3339 times as nanoseconds since 1970-01-01T00:00:00Z, exactly.

const SECOND: i128 = 1_000_000_000;

/// Why a text is no time: the byte where reading stopped, and what is allowed there.
pub type Fault = (usize, &'static str);

struct Reader<'a> {
    text: &'a [u8],
    at: usize,
}

impl Reader<'_> {
    /// A number of exactly `digits` digits, within low to high.
    fn number(&mut self, digits: usize, low: i64, high: i64, allowed: &'static str) -> Result<i64, Fault> {
        let start = self.at;
        let mut value = 0;
        for _ in 0..digits {
            match self.text.get(self.at) {
                Some(d @ b'0'..=b'9') => value = 10 * value + i64::from(d - b'0'),
                _ => return Err((self.at, allowed)),
            }
            self.at += 1;
        }
        if (low..=high).contains(&value) {
            Ok(value)
        } else {
            Err((start, allowed))
        }
    }
    fn one_of(&mut self, bytes: &[u8], allowed: &'static str) -> Result<u8, Fault> {
        match self.text.get(self.at) {
            Some(b) if bytes.contains(b) => {
                self.at += 1;
                Ok(*b)
            }
            _ => Err((self.at, allowed)),
        }
    }
    fn fraction(&mut self) -> Result<i128, Fault> {
        let (mut value, mut unit) = (0, SECOND);
        let start = self.at;
        while let Some(d @ b'0'..=b'9') = self.text.get(self.at) {
            unit /= 10;
            if unit == 0 && *d != b'0' {
                return Err((self.at, "at most nine digits of a second: times are whole nanoseconds"));
            }
            value += i128::from(d - b'0') * unit;
            self.at += 1;
        }
        if self.at == start {
            return Err((start, "digits after the decimal point"));
        }
        Ok(value)
    }
}

/// What is allowed in place of a form that files for other programs have.
macro_rules! rfc_3339 {
    () => {
        "RFC 3339, such as 2026-03-20T14:46:00Z"
    };
    ($form:literal) => {
        concat!(rfc_3339!(), " (this reads like ", $form, ")")
    };
}

/// Reads a time such as 2026-03-20T14:46:00Z, 2026-03-20T14:46:00.123456789+01:00.
pub fn parse(text: &str) -> Result<i64, Fault> {
    let r = &mut Reader { text: text.as_bytes(), at: 0 };
    if let Some(other) = other_form(text) {
        return Err((0, other));
    }
    let year = r.number(4, 0, 9999, rfc_3339!()).map_err(|(_, allowed)| (0, allowed))?;
    if let [b'-' | b':' | b'/' | b' ', b'0'..=b'9', b'0'..=b'9', b'0'..=b'9', ..] = r.text[r.at..] {
        return Err((r.at, rfc_3339!("a day of the year")));
    }
    r.one_of(b"-", rfc_3339!())?;
    let month = r.number(2, 1, 12, "a month from 01 to 12")?;
    r.one_of(b"-", rfc_3339!())?;
    let day_at = r.at;
    let day = r.number(2, 1, 31, "a day of that month")?;
    if day > days_of(year, month) {
        return Err((day_at, "a day of that month"));
    }
    let is_date = r.at == text.len();
    r.one_of(b"Tt ", if is_date { rfc_3339!("a date alone") } else { "T between date and time" })?;
    let hour = r.number(2, 0, 23, "an hour from 00 to 23")?;
    r.one_of(b":", "hours, minutes and seconds with : between them")?;
    let minute = r.number(2, 0, 59, "a minute from 00 to 59")?;
    r.one_of(b":", rfc_3339!("a time without seconds"))?;
    let second = r.number(2, 0, 59, "a second from 00 to 59 (leap seconds have no place in nanoseconds since 1970)")?;
    let mut nanos = 0;
    match r.text.get(r.at) {
        Some(b'.') => {
            r.at += 1;
            nanos = r.fraction()?;
        }
        Some(b',') => return Err((r.at, "a point before the fraction of a second")),
        _ => {}
    }
    let zone = match r.text.get(r.at) {
        None => "Z at its end for UTC, or an offset such as +01:00 (this reads like a time without its zone)",
        Some(_) => "Z or an offset such as +01:00",
    };
    let offset = match r.one_of(b"Zz+-", zone)? {
        sign @ (b'+' | b'-') => {
            let hours = r.number(2, 0, 23, "an offset's hours from 00 to 23")?;
            r.one_of(b":", "an offset's hours and minutes with : between them")?;
            let minutes = r.number(2, 0, 59, "an offset's minutes from 00 to 59")?;
            (60 * hours + minutes) * if sign == b'+' { 60 } else { -60 }
        }
        _ => 0,
    };
    if r.at < text.len() {
        return Err((r.at, "nothing after the time"));
    }
    let seconds = 86_400 * days_since_1970(year, month, day) + 3600 * hour + 60 * minute + second - offset;
    i64::try_from(i128::from(seconds) * SECOND + nanos).map_err(|_| (0, "a time from 1843-03-31T16:53:20Z to 2096-10-02T07:06:40Z"))
}

/// What is allowed, if this is a number or has the look of another form; a number's form is recognised by its size.
fn other_form(text: &str) -> Option<&'static str> {
    let scale = text.trim_end_matches(|c: char| !c.is_ascii_alphabetic());
    if scale.eq_ignore_ascii_case("JD") {
        return Some(rfc_3339!("a Julian Date"));
    }
    if scale.eq_ignore_ascii_case("MJD") {
        return Some(rfc_3339!("a Modified Julian Date"));
    }
    let after = text.trim_start_matches(|c: char| c.is_ascii_digit());
    if text.len() - after.len() == 8 && (after.is_empty() || after.starts_with(['T', 't', ' '])) {
        return Some(rfc_3339!("a date without hyphens"));
    }
    // The days of two centuries and more about now, and powers of ten about the seconds since 1970.
    Some(match text.parse::<f64>().ok()?.abs() {
        x if (2.35e6..2.55e6).contains(&x) => rfc_3339!("a Julian Date"),
        x if (1e4..2e5).contains(&x) => rfc_3339!("a Modified Julian Date"),
        x if (1e8..1e11).contains(&x) => rfc_3339!("seconds since 1970"),
        x if (1e11..1e14).contains(&x) => rfc_3339!("milliseconds since 1970"),
        x if (1e14..1e17).contains(&x) => rfc_3339!("microseconds since 1970"),
        x if (1e17..1e20).contains(&x) => rfc_3339!("nanoseconds since 1970"),
        _ => rfc_3339!(),
    })
}

/// Writes a time in UTC with this many digits of a second, 0 to 9; the digits left off are cut.
pub fn format(nanos: i64, digits: usize) -> String {
    let seconds = nanos.div_euclid(SECOND as i64);
    let (days, of_day) = (seconds.div_euclid(86_400), seconds.rem_euclid(86_400));
    let (year, month, day) = date_of(days);
    let mut text = format!("{:04}-{:02}-{:02}T{:02}:{:02}:{:02}", year, month, day, of_day / 3600, of_day / 60 % 60, of_day % 60);
    if digits > 0 {
        let fraction = format!("{:09}", nanos.rem_euclid(SECOND as i64));
        text += ".";
        text += &fraction[..digits];
    }
    text + "Z"
}

/// The fewest digits of a second, by threes, that lose nothing of any of these times.
pub fn digits(times: impl IntoIterator<Item = i64>) -> usize {
    times.into_iter().fold(0, |most, t| {
        let needed = match (t % 1_000_000_000, t % 1_000_000, t % 1_000) {
            (0, ..) => 0,
            (_, 0, _) => 3,
            (_, _, 0) => 6,
            _ => 9,
        };
        most.max(needed)
    })
}

fn is_leap(year: i64) -> bool {
    year % 4 == 0 && (year % 100 != 0 || year % 400 == 0)
}

pub fn days_of(year: i64, month: i64) -> i64 {
    match month {
        2 if is_leap(year) => 29,
        2 => 28,
        4 | 6 | 9 | 11 => 30,
        _ => 31,
    }
}

/// Days since 1970-01-01 in the Gregorian calendar. Years are counted from March, so that a leap day ends one.
pub fn days_since_1970(year: i64, month: i64, day: i64) -> i64 {
    let year = if month <= 2 { year - 1 } else { year };
    let (era, of_era) = (year.div_euclid(400), year.rem_euclid(400));
    let day_of_year = (153 * ((month + 9) % 12) + 2) / 5 + day - 1;
    146_097 * era + 365 * of_era + of_era / 4 - of_era / 100 + day_of_year - 719_468
}

pub fn date_of(days: i64) -> (i64, i64, i64) {
    let days = days + 719_468;
    let (era, of_era) = (days.div_euclid(146_097), days.rem_euclid(146_097));
    let year = (of_era - of_era / 1460 + of_era / 36_524 - of_era / 146_096) / 365;
    let day_of_year = of_era - (365 * year + year / 4 - year / 100);
    let from_march = (5 * day_of_year + 2) / 153;
    let month = if from_march < 10 { from_march + 3 } else { from_march - 9 };
    let day = day_of_year - (153 * from_march + 2) / 5 + 1;
    (400 * era + year + i64::from(month <= 2), month, day)
}

#[cfg(test)]
mod tests {
    use super::*;
    use proptest::prelude::*;

    #[test]
    fn known_times_are_read_and_written() {
        assert_eq!(parse("1970-01-01T00:00:00Z"), Ok(0));
        assert_eq!(parse("2000-02-29T12:00:00Z"), Ok(951_825_600_000_000_000));
        assert_eq!(parse("1969-12-31T23:59:59.999999999Z"), Ok(-1));
        assert_eq!(parse("2026-03-20t15:46:00.5+01:00"), parse("2026-03-20 14:46:00.500z"));
        assert_eq!(parse("2096-10-02T07:06:40Z"), Ok(4_000_000_000_000_000_000));
        assert_eq!(parse("1843-03-31T16:53:20Z"), Ok(-4_000_000_000_000_000_000));
        assert_eq!(parse("2026-01-01T00:00:00.1234567890Z"), parse("2026-01-01T00:00:00.123456789Z"));
        assert_eq!(format(-1, 9), "1969-12-31T23:59:59.999999999Z");
        assert_eq!(format(951_825_600_000_000_000, 0), "2000-02-29T12:00:00Z");
    }
    #[test]
    fn a_fault_has_the_byte_where_reading_stopped() {
        for (text, at) in [
            ("", 0),
            ("2026-13-01T00:00:00Z", 5),
            ("2026-02-29T00:00:00Z", 8),
            ("2026-02-28X00:00:00Z", 10),
            ("2026-02-28T24:00:00Z", 11),
            ("2026-12-31T23:59:60Z", 17),
            ("2026-02-28T00:00:00", 19),
            ("2026-02-28T00:00:00.Z", 20),
            ("2026-02-28T00:00:00.1234567891Z", 29),
            ("2026-02-28T00:00:00Z ", 20),
            ("2026-02-28T00:00:00+1:00", 21),
            ("9999-02-28T00:00:00Z", 0),
        ] {
            assert_eq!(parse(text).unwrap_err().0, at, "{}", text);
        }
    }
    #[test]
    fn other_forms_are_recognised() {
        for (text, at, says) in [
            ("2461120.5", 0, "a Julian Date"),
            ("JD 2461120.5", 0, "a Julian Date"),
            ("61120.5", 0, "a Modified Julian Date"),
            ("61120", 0, "a Modified Julian Date"),
            ("mjd61120.25", 0, "a Modified Julian Date"),
            ("1773964800", 0, "seconds since 1970"),
            ("1773964800.5", 0, "seconds since 1970"),
            ("1773964800000", 0, "milliseconds since 1970"),
            ("1.7739648e18", 0, "nanoseconds since 1970"),
            ("20260320T000000Z", 0, "a date without hyphens"),
            ("20260320", 0, "a date without hyphens"),
            ("2026-079T00:00:00Z", 4, "a day of the year"),
            ("2026:079:00:00:00", 4, "a day of the year"),
            ("2026-03-20", 10, "a date alone"),
            ("2026-03-20T14:46Z", 16, "a time without seconds"),
            ("2026-03-20T14:46:00", 19, "a time without its zone"),
            ("2026-03-20T14:46:00.25", 22, "a time without its zone"),
            ("2026-03-20 14:46:00 UTC", 19, "Z or an offset"),
            ("2026-03-20T14:46:00,5Z", 19, "a point before the fraction"),
            ("2026/03/20 14:46:00", 4, "such as 2026-03-20T14:46:00Z"),
            ("20 Mar 2026", 0, "such as 2026-03-20T14:46:00Z"),
            ("noon", 0, "such as 2026-03-20T14:46:00Z"),
            ("", 0, "such as 2026-03-20T14:46:00Z"),
            ("7", 0, "such as 2026-03-20T14:46:00Z"),
            ("nan", 0, "such as 2026-03-20T14:46:00Z"),
        ] {
            let (stopped, allowed) = parse(text).unwrap_err();
            assert_eq!(stopped, at, "{}", text);
            assert!(allowed.contains(says), "{}: {}", text, allowed);
        }
    }
    proptest! {
        #[test]
        fn a_time_that_is_written_reads_back(t in any::<i64>()) {
            prop_assert_eq!(parse(&format(t, 9)), Ok(t));
            prop_assert_eq!(parse(&format(t, digits([t]))), Ok(t));
        }
        #[test]
        fn any_text_is_read_or_faulted_inside_it(text in "[0-9TZtz:.+ -]{0,35}") {
            if let Err((at, _)) = parse(&text) {
                prop_assert!(at <= text.len());
            }
        }
        #[test]
        fn any_characters_are_read_or_faulted_between_two(text in "(\\PC|\\s|[0-9]){0,30}") {
            if let Err((at, _)) = parse(&text) {
                prop_assert!(text.is_char_boundary(at));
            }
        }
        #[test]
        fn a_changed_time_is_read_or_faulted_between_two(t in any::<i64>(), from in 0usize..30, to in 0usize..30, put in "\\PC{0,3}") {
            let mut text = format(t, 9);
            text.replace_range(from.min(to)..from.max(to), &put);
            if let Err((at, _)) = parse(&text) {
                prop_assert!(text.is_char_boundary(at));
            }
        }
        #[test]
        fn consecutive_days_are_one_apart(d in -80_000i64..80_000) {
            let (y, m, day) = date_of(d);
            prop_assert_eq!(days_since_1970(y, m, day), d);
            prop_assert!(day <= days_of(y, m));
        }
    }
}
