//! Where the Sun stands, by a plain almanac formula, to tell an ephemeris of other axes, signs or dates from one that is meant. Nothing is swept
//! by it: it makes no number of a mask or a window.
use crate::text::number;
use std::fmt;

/// The times for which it is used, in nanoseconds since 1970: from 1950 on. All that is accepted is before 2097.
pub const FROM: i64 = -631_152_000_000_000_000;

/// A direction in degrees: right ascension from 0 to 360, and declination.
#[derive(Clone, Copy, Debug, PartialEq)]
pub struct Position {
    pub ra: f64,
    pub dec: f64,
}

impl Position {
    /// The direction of a vector that is not 0.
    pub fn of([x, y, z]: [f64; 3]) -> Position {
        Position { ra: y.atan2(x).to_degrees().rem_euclid(360.0), dec: z.atan2(x.hypot(y)).to_degrees() }
    }
    /// The angle to another direction, in degrees.
    pub fn angle_to(self, other: Position) -> f64 {
        let half_chord = |a: f64, b: f64| ((a - b).to_radians() / 2.0).sin().powi(2);
        let across = self.dec.to_radians().cos() * other.dec.to_radians().cos() * half_chord(self.ra, other.ra);
        2.0 * (half_chord(self.dec, other.dec) + across).sqrt().min(1.0).asin().to_degrees()
    }
}

impl fmt::Display for Position {
    fn fmt(&self, f: &mut fmt::Formatter) -> fmt::Result {
        // Adding 0 makes 0 of -0.
        let rounded = |x: f64| (x * 1000.0).round() / 1000.0 + 0.0;
        write!(f, "ra {}, dec {}", number(rounded(self.ra) % 360.0), number(rounded(self.dec)))
    }
}

/// The direction to the Sun from the Earth, a unit vector referred to the equator and equinox of the date: to about 0.01 degrees from 1950 to 2050, and little worse up to 2097.
/// J2000 and ICRS axes differ from these by precession, less than 1.4 degrees in those years.
pub fn sun(nanoseconds: i64) -> [f64; 3] {
    // Days since 2000-01-01T12:00:00. UTC and dynamical time differ by some 70 s, in which the Sun moves less than 0.001 degrees.
    let days = nanoseconds as f64 / 86_400e9 - 10_957.5;
    let mean_longitude = 280.460 + 0.985_647_4 * days;
    let mean_anomaly = (357.528 + 0.985_600_3 * days).to_radians();
    let equation_of_centre = 1.915 * mean_anomaly.sin() + 0.020 * (2.0 * mean_anomaly).sin();
    let longitude = (mean_longitude + equation_of_centre).to_radians();
    let obliquity = (23.439 - 0.000_000_4 * days).to_radians();
    [longitude.cos(), obliquity.cos() * longitude.sin(), obliquity.sin() * longitude.sin()]
}

#[cfg(test)]
mod tests {
    use super::*;
    use crate::instant;

    fn at(time: &str) -> Position {
        Position::of(sun(instant::parse(time).unwrap()))
    }

    #[test]
    fn the_almanac_has_known_positions() {
        assert_eq!(instant::format(FROM, 0), "1950-01-01T00:00:00Z");
        for (time, ra, dec) in [
            // Equinoxes and solstices to the minute: the longitude is a multiple of 90 degrees.
            ("2000-03-20T07:35:00Z", 0.0, 0.0),
            ("2026-03-20T14:46:00Z", 0.0, 0.0),
            ("2026-06-21T08:24:00Z", 90.0, 23.436),
            ("2026-09-23T00:05:00Z", 180.0, 0.0),
            ("2026-12-21T20:50:00Z", 270.0, -23.436),
            ("1950-03-21T04:35:00Z", 0.0, 0.0),
            ("2044-03-19T23:20:00Z", 0.0, 0.0),
            // J2000.
            ("2000-01-01T12:00:00Z", 281.29, -23.03),
            // A worked example of Meeus, Astronomical Algorithms, chapter 25.
            ("1992-10-13T00:00:00Z", 198.381, -7.785),
        ] {
            let off = at(time).angle_to(Position { ra, dec });
            assert!(off < 0.02, "{}: {:?} is {} degrees off", time, at(time), off);
        }
    }
    /// It moves fastest at perihelion, early in January, and slowest at aphelion, early in July: by 1.0194 and 0.9532 degrees a day.
    #[test]
    fn the_almanac_s_sun_moves_fastest_at_perihelion() {
        let moved = |from: &str, to: &str| at(from).angle_to(at(to));
        assert!((moved("2026-01-03T00:00:00Z", "2026-01-04T00:00:00Z") - 1.0194).abs() < 0.001);
        assert!((moved("2026-07-06T00:00:00Z", "2026-07-07T00:00:00Z") - 0.9532).abs() < 0.001);
    }
    #[test]
    fn angles_between_positions() {
        let position = |ra, dec| Position { ra, dec };
        for (a, b, angle) in [
            (position(10.0, 0.0), position(350.0, 0.0), 20.0),
            (position(0.0, 90.0), position(123.0, -90.0), 180.0),
            (position(0.0, 60.0), position(180.0, 60.0), 60.0),
            (position(77.0, -5.0), position(77.0, -5.0), 0.0),
        ] {
            assert!((a.angle_to(b) - angle).abs() < 1e-6, "{:?} {:?}", a, b);
        }
        assert_eq!(Position::of([0.0, -2.0, 0.0]), position(270.0, 0.0));
        assert_eq!(Position::of([0.0, 0.0, -3.0]), position(0.0, -90.0));
        for (p, text) in [
            (position(359.9996, -0.0001), "ra 0, dec 0"),
            (position(0.0, 90.0), "ra 0, dec 90"),
            (position(359.4472, -1.5), "ra 359.447, dec -1.5"),
        ] {
            assert_eq!(p.to_string(), text);
        }
    }
}
