//! Document 02, request One: the vectors of catalogue positions.
use crate::arithmetic::{radians, sin_cos};
use crate::{first, Answer};

/// Degrees of right ascension and declination, both ends included: NaN lies in no range.
pub fn is_position(ra: f64, dec: f64) -> bool {
    (0.0..=360.0).contains(&ra) && (-90.0..=90.0).contains(&dec)
}

pub fn radec_to_unit(ra: f64, dec: f64) -> [f64; 3] {
    let (sr, cr) = sin_cos(radians(ra));
    let (sd, cd) = sin_cos(radians(dec));
    [cd * cr, cd * sr, sd]
}

/// x, y and z, one position after the other. `lent`: the output's length.
pub fn radec_to_unit_vectors_batch(ra: &[f64], dec: &[f64], lent: usize) -> Answer<Vec<f64>> {
    let positions = || ra.iter().copied().zip(dec.iter().copied());
    first(&[(ra.len() != dec.len(), 1), (positions().any(|(ra, dec)| !is_position(ra, dec)), 16), (lent / 3 < ra.len(), 7)])?;
    Ok(positions().flat_map(|(ra, dec)| radec_to_unit(ra, dec)).collect())
}

#[cfg(test)]
mod tests {
    use super::*;
    use crate::arithmetic::bits;

    #[test]
    fn vectors_along_the_axes_are_exact() {
        for (ra, dec, vector) in [
            (0.0, 0.0, [1.0, 0.0, 0.0]),
            (90.0, 0.0, [-0.0, 1.0, 0.0]),
            (180.0, 0.0, [-1.0, -0.0, 0.0]),
            (270.0, 0.0, [0.0, -1.0, 0.0]),
            (360.0, 0.0, [1.0, 0.0, 0.0]),
            (0.0, 90.0, [-0.0, -0.0, 1.0]),
            (180.0, -90.0, [0.0, 0.0, -1.0]),
            // -0 is within the ranges, and below nothing.
            (-0.0, -0.0, [1.0, 0.0, 0.0]),
        ] {
            assert_eq!(radec_to_unit(ra, dec).map(bits), vector.map(bits), "{ra} {dec}");
            assert!(is_position(ra, dec), "{ra} {dec}");
        }
    }

    #[test]
    fn refusals_come_in_the_listed_order() {
        let list = |ra: &[f64], dec: &[f64], lent| radec_to_unit_vectors_batch(ra, dec, lent).map(|out| out.len());
        assert_eq!(list(&[], &[], 0), Ok(0));
        assert_eq!(list(&[10.0, 20.0], &[0.0, 5.0], 6), Ok(6));
        assert_eq!(list(&[10.0, 20.0], &[0.0, 5.0], 9), Ok(6));
        assert_eq!(list(&[10.0, 20.0], &[0.0, 5.0], 5), Err(7));
        assert_eq!(list(&[f64::NAN, 10.0], &[0.0], 0), Err(1));
        assert_eq!(list(&[10.0, 360.00000000000006], &[0.0, 5.0], 0), Err(16));
        for (ra, dec) in [(-5e-324, 0.0), (f64::NAN, 0.0), (f64::INFINITY, 0.0), (0.0, 90.00000000000001), (0.0, -90.00000000000001)] {
            assert_eq!(list(&[10.0, ra], &[0.0, dec], 6), Err(16), "{ra} {dec}");
            assert_eq!(list(&[ra, 10.0], &[dec, 0.0], 6), Err(16), "{ra} {dec}");
        }
        assert_eq!(list(&[0.0], &[f64::NAN], 3), Err(16));
    }
}
