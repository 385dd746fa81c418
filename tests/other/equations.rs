//! Systems of equations: each a row of coefficients, with a payload of 128 symbols behind them.

use crate::field::Field;
use crate::frame::SYMBOLS;

pub type Equation = Vec<u32>;

/// The equations in reduced row echelon form, without the rows that are all 0. A contradiction leaves a row that is 0
/// but for its payload.
pub fn solved(field: Field, mut rows: Vec<Equation>) -> Vec<Equation> {
    let columns = rows.first().map_or(0, |row| row.len() - SYMBOLS);
    let mut done = 0;
    for column in 0..columns {
        let Some(at) = (done..rows.len()).find(|&i| rows[i][column] != 0) else {
            continue;
        };
        rows.swap(done, at);
        let inverse = field.inverse(rows[done][column]).expect("a code other than 0");
        let lead: Equation = rows[done].iter().map(|&x| field.mul(x, inverse)).collect();
        for (i, row) in rows.iter_mut().enumerate() {
            let factor = row[column];
            if i != done && factor != 0 {
                subtract(field, row, factor, &lead);
            }
        }
        rows[done] = lead;
        done += 1;
    }
    rows.retain(|row| row.iter().any(|&x| x != 0));
    rows
}

/// Subtracts so many times the codes.
pub fn subtract(field: Field, from: &mut [u32], factor: u32, codes: &[u32]) {
    for (x, &y) in from.iter_mut().zip(codes) {
        *x = field.sub(*x, field.mul(factor, y));
    }
}

/// Where a row of a solved system begins; nowhere, if only its payload is not 0.
pub fn pivot(row: &Equation) -> Option<usize> {
    (0..row.len() - SYMBOLS).find(|&k| row[k] != 0)
}

/// The packet at place k, if the solved system has it alone.
pub fn packet(rows: &[Equation], k: usize) -> Option<Vec<u32>> {
    let row = rows.iter().find(|row| pivot(row) == Some(k))?;
    let coefficients = row.len() - SYMBOLS;
    let alone = (0..coefficients).all(|j| j == k || row[j] == 0);
    alone.then(|| row[coefficients..].to_vec())
}
