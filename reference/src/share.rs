//! The division of a total by weights.

use crate::number::Number;

/// 01 "Division by shares", 02 "A7": the most weights that one division takes.
pub const MOST_WEIGHTS: usize = 300;
/// 01 "Division by shares": the greatest weight.
pub const GREATEST_WEIGHT: u32 = 3_000_000;
/// 01 "Division by shares": the greatest T.
pub const GREATEST_TOTAL: u64 = 6_000_000_000_000;

/// 01 "Division by shares": fills the first amounts with the shares of `total`, one for each weight; meets 3, 13, 15.
pub fn divide(total: u64, weights: &[u32], amounts: &mut [u64]) -> Result<(), Number> {
    if weights.is_empty() || weights.len() > MOST_WEIGHTS || total > GREATEST_TOTAL {
        return Err(Number::Range);
    }
    if weights.iter().any(|&weight| weight > GREATEST_WEIGHT) {
        return Err(Number::Range);
    }
    let sum: u64 = weights.iter().map(|&weight| u64::from(weight)).sum();
    if sum == 0 {
        return Err(Number::NoWeight);
    }
    if amounts.len() < weights.len() {
        return Err(Number::Buffer);
    }
    let mut remainders = [(0u64, 0usize); MOST_WEIGHTS];
    let remainders = &mut remainders[..weights.len()];
    let mut left = total;
    for (place, &weight) in weights.iter().enumerate() {
        // at most 6,000,000,000,000 times 3,000,000, which is below 2 to the 64th
        let product = total * u64::from(weight);
        let whole = product / sum;
        amounts[place] = whole;
        remainders[place] = (product % sum, place);
        left -= whole;
    }
    for &(_, place) in first(remainders, left as usize) {
        amounts[place] += 1;
    }
    Ok(())
}

/// 01 "Division by shares": so many of the remainders, fewer than there are, the largest ones, of equal ones those of the lower numbers.
fn first(remainders: &mut [(u64, usize)], left: usize) -> &[(u64, usize)] {
    remainders.select_nth_unstable_by(left, |one, other| other.0.cmp(&one.0).then(one.1.cmp(&other.1))).0
}

#[cfg(test)]
mod tests {
    use super::*;

    fn shares(total: u64, weights: &[u32]) -> Result<Vec<u64>, Number> {
        let mut amounts = vec![0; weights.len()];
        divide(total, weights, &mut amounts).map(|()| amounts)
    }

    #[test]
    fn equal_weights_give_the_unit_left_over_to_the_lower_number() {
        assert_eq!(shares(10_000, &[1000, 1000, 1000]), Ok(vec![3334, 3333, 3333]));
        assert_eq!(shares(2, &[7, 7, 7]), Ok(vec![1, 1, 0]));
        assert_eq!(shares(2, &[0, 7, 0, 7, 7]), Ok(vec![0, 1, 0, 1, 0]));
    }

    #[test]
    fn units_left_over_go_to_the_largest_remainders() {
        // 10/7, 20/7, 40/7 leave the remainders 3, 6, 5.
        assert_eq!(shares(10, &[1, 2, 4]), Ok(vec![1, 3, 6]));
        // 3/4, 3/4, 6/4 leave the remainders 3, 3, 2.
        assert_eq!(shares(3, &[1, 1, 2]), Ok(vec![1, 1, 1]));
        assert_eq!(shares(1, &[1, 2]), Ok(vec![0, 1]));
    }

    #[test]
    fn the_shares_sum_to_the_total_and_differ_from_the_quotient_by_less_than_one() {
        let weights: Vec<u32> = (0..300).map(|n| (n * n * 7919 + 13) % 3_000_001).collect();
        let sum: u128 = weights.iter().map(|&w| u128::from(w)).sum();
        for total in [0, 1, 63, 64, 299, 300, 301, 2_999_999, 5_759_999_970_000, GREATEST_TOTAL] {
            let amounts = shares(total, &weights).unwrap();
            assert_eq!(amounts.iter().sum::<u64>(), total);
            for (&amount, &weight) in amounts.iter().zip(&weights) {
                let exact = u128::from(total) * u128::from(weight);
                assert!((u128::from(amount) * sum).abs_diff(exact) < sum);
            }
        }
    }

    #[test]
    fn the_greatest_total_and_weights_fit() {
        for count in [64, 300] {
            let amounts = shares(GREATEST_TOTAL, &vec![GREATEST_WEIGHT; count]).unwrap();
            assert_eq!(amounts, vec![GREATEST_TOTAL / count as u64; count]);
        }
        assert_eq!(shares(GREATEST_TOTAL, &[GREATEST_WEIGHT]), Ok(vec![GREATEST_TOTAL]));
    }

    #[test]
    fn each_number_of_units_left_over_goes_to_the_lower_numbers_of_equal_weights() {
        for count in [1, 2, 64, 65, 255, 256, 299, 300] {
            for left in 0..count {
                let amounts = shares((7 * count + left) as u64, &vec![11; count]).unwrap();
                let expected: Vec<u64> = (0..count).map(|place| 7 + u64::from(place < left)).collect();
                assert_eq!(amounts, expected);
            }
        }
    }

    #[test]
    fn numbers_come_in_the_order_3_13_15() {
        assert_eq!(shares(1, &[]), Err(Number::Range));
        assert_eq!(shares(1, &[1; 301]), Err(Number::Range));
        assert_eq!(shares(1, &[3_000_001]), Err(Number::Range));
        assert_eq!(shares(GREATEST_TOTAL + 1, &[0]), Err(Number::Range));
        assert_eq!(divide(1, &[0, 0], &mut []), Err(Number::NoWeight));
        let mut short = [9];
        assert_eq!(divide(1, &[1, 1], &mut short), Err(Number::Buffer));
        assert_eq!(short, [9]);
        let mut long = [9, 9, 9];
        assert_eq!(divide(1, &[1, 1], &mut long), Ok(()));
        assert_eq!(long, [1, 0, 9]);
    }
}
