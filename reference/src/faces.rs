//! Faces: whether new pools and good lots keep within the limits (checks 34 and 35).

use crate::lots::{current_faces_cents, Kind, Lot, CENTS_A_MILLION};
use crate::opening::FACE_DOLLARS_MAX;
use crate::pool_detail::PoolDetail;
use crate::values::Limits;

/// Check 34 of one new pool: both faces are digits, the original face is within its bounds.
pub fn pool_passes_34(pool: &PoolDetail, limits: &Limits) -> bool {
    let bounds = limits.least_face_dollars..=FACE_DOLLARS_MAX;
    pool.current_face_cents().is_some()
        && pool.original_face_dollars().is_some_and(|face| bounds.contains(&face))
}

/// Check 35 of one new lot: a good lot's faces and number of pools; other kinds pass.
pub fn lot_passes_35(lot: &Lot, details: &[PoolDetail], limits: &Limits) -> bool {
    if lot.kind != Kind::Good {
        return true;
    }
    current_faces_cents(lot.of(details))
        .is_some_and(|cents| good_lot_passes_35(lot.millions, cents, lot.pools as u64, limits))
}

/// Check 35 in numbers: the faces' sum is off the weight by at most variance × millions, and
/// there are at most pools a million × millions.
pub fn good_lot_passes_35(millions: u64, faces_cents: u64, pools: u64, limits: &Limits) -> bool {
    let millions = u128::from(millions);
    let weight_cents = millions * u128::from(CENTS_A_MILLION);
    let off_cents = weight_cents.abs_diff(u128::from(faces_cents));
    off_cents <= u128::from(limits.variance_cents_a_million) * millions
        && u128::from(pools) <= u128::from(limits.pools_a_million) * millions
}

#[cfg(test)]
mod tests {
    use super::*;

    const LIMITS: Limits = Limits {
        gdmm_ceiling: 2_500,
        variance_cents_a_million: 10_000,
        pools_a_million: 3,
        least_face_dollars: 1_000,
    };

    #[test]
    fn the_variance_of_the_proof_table() {
        assert!(good_lot_passes_35(2, 200_020_000, 1, &LIMITS));
        assert!(!good_lot_passes_35(2, 200_020_001, 1, &LIMITS));
        assert!(good_lot_passes_35(2, 199_980_000, 1, &LIMITS));
        assert!(!good_lot_passes_35(2, 199_979_999, 1, &LIMITS));
    }

    #[test]
    fn the_number_of_pools() {
        assert!(good_lot_passes_35(2, 200_000_000, 6, &LIMITS));
        assert!(!good_lot_passes_35(2, 200_000_000, 7, &LIMITS));
        assert!(!good_lot_passes_35(u64::MAX, 0, u64::MAX, &LIMITS));
    }

    #[test]
    fn the_bounds_of_the_original_face() {
        let pool = |original: &[u8; 9], current: &[u8; 11]| {
            let mut pool = PoolDetail::default();
            pool.matched.original_face = *original;
            pool.current_face = *current;
            pool_passes_34(&pool, &LIMITS)
        };
        assert!(pool(b"000001000", b"00000000000"));
        assert!(pool(b"050000000", b"99999999999"));
        assert!(!pool(b"000000999", b"00000000000"));
        assert!(!pool(b"050000001", b"00000000000"));
        assert!(!pool(b"00000100 ", b"00000000000"));
        assert!(!pool(b"000001000", b" 0000000000"));
    }
}
