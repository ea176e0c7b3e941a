//! The equations of document 01 between two simplices, and what they have for solutions, by elimination.

use crate::numbers::whole::{cross, Whole};

/// x, y, z and time.
pub type Point = [i64; 4];

/// One column for each weight, first simplex first, and the right side last. Six rows: the weights of each simplex
/// sum to 1; the weighted x, y, z and time agree. Time stands before x, y, z, so that the small numbers are used up
/// first and the others grow late.
fn equations(first: &[Point], second: &[Point]) -> Vec<Vec<Whole>> {
    let row = |of_first: &dyn Fn(&Point) -> i64, of_second: &dyn Fn(&Point) -> i64, right: i64| {
        let left = first.iter().map(of_first).chain(second.iter().map(of_second));
        left.chain([right]).map(|number| Whole::from(number as i128)).collect()
    };
    let mut rows = vec![row(&|_| 1, &|_| 0, 1), row(&|_| 0, &|_| 1, 1)];
    for axis in [3, 0, 1, 2] {
        rows.push(row(&|p| p[axis], &|p| -p[axis], 0));
    }
    rows
}

/// The same solutions, brought to a form in which they can be read off: each row of `settled` begins, at its own
/// unknown, with a number above 0, where every other row has 0.
pub struct Solutions {
    /// The unknown, and the row that settles it.
    settled: Vec<(usize, Vec<Whole>)>,
    /// The unknowns that no row settles.
    free: Vec<usize>,
    /// Whether some row says that 0 is another number.
    contradiction: bool,
}

impl Solutions {
    pub fn of(first: &[Point], second: &[Point]) -> Solutions {
        let unknowns = first.len() + second.len();
        let mut rows = equations(first, second);
        let mut settled: Vec<(usize, Vec<Whole>)> = Vec::new();
        let mut free = Vec::new();
        for unknown in 0..unknowns {
            let Some(at) = rows.iter().position(|row| row[unknown].sign() != 0) else {
                free.push(unknown);
                continue;
            };
            let mut pivot = rows.remove(at);
            if pivot[unknown].sign() < 0 {
                pivot = pivot.iter().map(Whole::minus).collect();
            }
            rows.iter_mut().for_each(|row| clear(row, &pivot, unknown));
            settled.iter_mut().for_each(|(_, row)| clear(row, &pivot, unknown));
            settled.push((unknown, pivot));
        }
        let contradiction = rows.iter().any(|row| row[unknowns].sign() != 0);
        Solutions { settled, free, contradiction }
    }

    /// Of a square system: whether its determinant is 0.
    pub fn singular(&self) -> bool {
        !self.free.is_empty()
    }

    /// The one solution of a square system that is not singular: for each weight its numerator, and its denominator,
    /// which is above 0.
    pub fn only(&self) -> Vec<(Whole, Whole)> {
        assert!(!self.singular() && !self.contradiction);
        // an unknown is settled in its turn, so the rows stand in the order of the unknowns
        self.settled.iter().map(|(unknown, row)| (row.last().unwrap().clone(), row[*unknown].clone())).collect()
    }

    /// Whether some solution has no negative weight, the system singular or not.
    pub fn any_nonnegative(&self) -> bool {
        if self.contradiction {
            return false;
        }
        let mut demands: Vec<Vec<Whole>> = self.settled.iter().map(|(_, row)| self.settled_demand(row)).collect();
        for (place, _) in self.free.iter().enumerate() {
            let mut demand = vec![Whole::ZERO; self.free.len() + 1];
            demand[place] = Whole::from(1);
            demands.push(demand);
        }
        for _ in &self.free {
            demands = without_first(&demands);
        }
        demands.iter().all(|demand| demand[0].sign() >= 0)
    }

    /// 'Not negative', said of a settled unknown in terms of the free ones: the factor of each, then the constant.
    fn settled_demand(&self, row: &[Whole]) -> Vec<Whole> {
        let factors = self.free.iter().map(|&unknown| row[unknown].minus());
        factors.chain([row.last().unwrap().clone()]).collect()
    }
}

/// Takes the pivot's unknown out of a row. The row keeps the sign of what it settles, for the pivot is above 0.
fn clear(row: &mut [Whole], pivot: &[Whole], unknown: usize) {
    if row[unknown].sign() == 0 {
        return;
    }
    let factor = row[unknown].clone();
    for (number, above) in row.iter_mut().zip(pivot) {
        if number.sign() != 0 || above.sign() != 0 {
            *number = cross(&pivot[unknown], number, &factor, above);
        }
    }
}

/// Fourier and Motzkin: demands 'this sum is at least 0' on several unknowns can be met exactly when these, on one
/// unknown fewer, can: those that do not speak of it, and each lower bound on it below each upper bound.
fn without_first(demands: &[Vec<Whole>]) -> Vec<Vec<Whole>> {
    let of_sign = |sign: i32| demands.iter().filter(move |demand| demand[0].sign() == sign);
    let mut out: Vec<Vec<Whole>> = of_sign(0).map(|demand| demand[1..].to_vec()).collect();
    for low in of_sign(1) {
        for high in of_sign(-1) {
            let joined = low.iter().zip(high).map(|(l, h)| cross(&low[0], h, &high[0], l));
            out.push(joined.skip(1).collect());
        }
    }
    out
}

/// Whether two simplices of any number of points meet.
pub fn meet(first: &[Point], second: &[Point]) -> bool {
    Solutions::of(first, second).any_nonnegative()
}
