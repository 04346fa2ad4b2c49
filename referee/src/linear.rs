//! Systems of linear equations over GF(256), by elimination.

use crate::field::{inverse, power_of_a, product};

/// Solves the equations. Each row holds the coefficients of the unknowns and
/// then the right side. There are as many rows as unknowns. Answers none if
/// the rows don't determine the unknowns.
pub fn solve(mut rows: Vec<Vec<u8>>) -> Option<Vec<u8>> {
    let size = rows.len();
    for column in 0..size {
        let pivot = (column..size).find(|&row| rows[row][column] != 0)?;
        rows.swap(column, pivot);
        let scale = inverse(rows[column][column]);
        for value in &mut rows[column] {
            *value = product(*value, scale);
        }
        let lead = rows[column].clone();
        for (index, row) in rows.iter_mut().enumerate() {
            let factor = row[column];
            if index != column && factor != 0 {
                for (value, &above) in row.iter_mut().zip(&lead) {
                    *value ^= product(above, factor);
                }
            }
        }
    }
    Some(rows.into_iter().map(|row| row[size]).collect())
}

/// The bytes which, standing at the given places, have the given sums: as
/// many sums S1, S2, ... are used as there are places. The places may lie
/// anywhere in the long word, 0 to 254, and must differ from each other.
pub fn bytes_with_sums(places: &[usize], sums: &[u8]) -> Vec<u8> {
    let rows = (0..places.len())
        .map(|row| {
            let j = row + 1;
            let mut equation: Vec<u8> = places.iter().map(|&i| power_of_a(i * j)).collect();
            equation.push(sums[row]);
            equation
        })
        .collect();
    solve(rows).expect("different places always determine their bytes")
}

#[cfg(test)]
mod tests {
    use super::*;

    #[test]
    fn solves_and_declines() {
        // x + y = 3 and 2x + y = 1, so 3x = 2 and y = x + 3.
        let answer = solve(vec![vec![1, 1, 3], vec![2, 1, 1]]).unwrap();
        assert_eq!(answer[0] ^ answer[1], 3);
        assert_eq!(product(2, answer[0]) ^ answer[1], 1);
        // A leading zero needs a swap.
        assert_eq!(solve(vec![vec![0, 1, 7], vec![1, 0, 9]]), Some(vec![9, 7]));
        assert_eq!(solve(vec![vec![1, 2, 0], vec![2, 4, 1]]), None);
        assert_eq!(solve(Vec::new()), Some(Vec::new()));
    }

    #[test]
    fn bytes_have_their_sums() {
        let places = [3, 95, 200, 254];
        let sums = [9, 0, 255, 17];
        let bytes = bytes_with_sums(&places, &sums);
        for j in 1..=4 {
            let mut sum = 0;
            for (&i, &byte) in places.iter().zip(&bytes) {
                sum ^= product(byte, power_of_a(i * j));
            }
            assert_eq!(sum, sums[j - 1]);
        }
    }
}
