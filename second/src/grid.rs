//! Stored depth grids, as the paper tells them: plain, and in no hurry.
use crate::coding::{self, Amount};

pub const LOWEST: i32 = -8_388_608;
pub const HIGHEST: i32 = 8_388_607;
pub const MOST: usize = 1_024;

/// A raster within the limits, its levels row by row.
#[derive(Clone, Debug, PartialEq)]
pub struct Survey {
    pub rows: usize,
    pub columns: usize,
    pub levels: Vec<i32>,
}

/// A square by its first row and column and its side.
#[derive(Clone, Copy)]
struct Square {
    row: usize,
    column: usize,
    side: usize,
}

impl Square {
    fn quarters(self) -> [Square; 4] {
        let side = self.side / 2;
        [(0, 0), (0, side), (side, 0), (side, side)].map(|(r, c)| Square {
            row: self.row + r,
            column: self.column + c,
            side,
        })
    }
}

/// The least power of two not below rows and columns.
fn side(rows: usize, columns: usize) -> usize {
    rows.max(columns).next_power_of_two()
}

impl Survey {
    pub fn level(&self, row: usize, column: usize) -> i32 {
        self.levels[row * self.columns + column]
    }

    fn whole(&self) -> Square {
        Square {
            row: 0,
            column: 0,
            side: side(self.rows, self.columns),
        }
    }

    /// Greatest and least over the real cells of a square, if it has any.
    fn pair(&self, s: Square) -> Option<(i32, i32)> {
        let rows = s.row..(s.row + s.side).min(self.rows);
        let cells = rows.flat_map(|r| (s.column..(s.column + s.side).min(self.columns)).map(move |c| (r, c)));
        let levels = cells.map(|(r, c)| self.level(r, c));
        levels.fold(None, |pair, v| match pair {
            None => Some((v, v)),
            Some((g, l)) => Some((v.max(g), v.min(l))),
        })
    }

    fn is_even(&self, s: Square) -> bool {
        self.pair(s).is_none_or(|(g, l)| g == l)
    }

    /// T, Lmax and Lmin, level by level from the top.
    pub fn lists(&self) -> (Vec<bool>, Vec<u32>, Vec<u32>) {
        let (mut marks, mut max, mut min) = (Vec::new(), Vec::new(), Vec::new());
        let mut level = vec![self.whole()];
        while level.iter().any(|&s| s.side > 1) {
            let mut next = Vec::new();
            for &s in level.iter().filter(|&&s| !self.is_even(s)) {
                let (greatest, least) = self.pair(s).unwrap();
                for q in s.quarters() {
                    let pair = self.pair(q);
                    max.push(pair.map_or(0, |(g, _)| (greatest - g) as u32));
                    if q.side > 1 {
                        marks.push(!self.is_even(q));
                        if !self.is_even(q) {
                            min.push((pair.unwrap().1 - least) as u32);
                        }
                    }
                    next.push(q);
                }
            }
            level = next;
        }
        (marks, max, min)
    }

    /// The twelve sections.
    pub fn stored(&self) -> Vec<u8> {
        let (greatest, least) = self.pair(self.whole()).unwrap();
        let (marks, max, min) = self.lists();
        let heading = [4, self.rows as u32, self.columns as u32, greatest as u32, least as u32];
        [
            heading.map(u32::to_le_bytes).concat(),
            coding::bit_section(&marks),
            coding::packed(&max),
            coding::packed(&min),
        ]
        .concat()
    }
}

/// Build: 1, 2, 6.
pub fn build(levels: &[i32], rows: u64, columns: u64, out: &mut [u8]) -> Amount {
    let fits = |n: u64| 1 <= n && n <= MOST as u64;
    if !fits(rows) || !fits(columns) || levels.len() as u64 != rows * columns {
        return (1, 0);
    }
    if levels.iter().any(|v| !(LOWEST..=HIGHEST).contains(v)) {
        return (2, 0);
    }
    let survey = Survey {
        rows: rows as usize,
        columns: columns as usize,
        levels: levels.to_vec(),
    };
    let bytes = survey.stored();
    if bytes.len() > out.len() {
        return (6, bytes.len() as u64);
    }
    out[..bytes.len()].copy_from_slice(&bytes);
    (0, bytes.len() as u64)
}

/// The survey that bytes say, if they say any, whether or not they are its stored form.
fn said(mut bytes: &[u8]) -> Option<Survey> {
    let mut number = || {
        let (head, rest) = bytes.split_at_checked(4)?;
        bytes = rest;
        Some(u32::from_le_bytes(head.try_into().unwrap()))
    };
    let (four, rows, columns) = (number()?, number()? as usize, number()? as usize);
    let (greatest, least) = (number()? as i32, number()? as i32);
    let ok = four == 4 && (1..=MOST).contains(&rows) && (1..=MOST).contains(&columns);
    if !ok || !(LOWEST..=HIGHEST).contains(&greatest) {
        return None;
    }
    let marks = coding::take_bits(&mut bytes)?;
    let max = coding::take_list(&mut bytes)?;
    coding::take_list(&mut bytes)?;
    let mut survey = Survey {
        rows,
        columns,
        levels: vec![greatest; rows * columns],
    };
    if greatest == least {
        return Some(survey);
    }
    // The quarters of the whole square stand from 0, those of the square at place z from four times the ones up to and including z.
    let whole = survey.whole();
    let mut open: Vec<(Square, usize, i64)> = Vec::new();
    if whole.side > 1 {
        open.push((whole, 0, greatest as i64));
    }
    let before: Vec<usize> = std::iter::once(0).chain(marks.iter().scan(0, |n, &m| { *n += m as usize; Some(*n) })).collect();
    while let Some((s, first, top)) = open.pop() {
        for (i, q) in s.quarters().into_iter().enumerate() {
            let z = first + i;
            let own = top - *max.get(z)? as i64;
            if q.side > 1 && *marks.get(z)? {
                open.push((q, 4 * before[z + 1], own));
                continue;
            }
            for r in q.row..(q.row + q.side).min(rows) {
                for c in q.column..(q.column + q.side).min(columns) {
                    survey.levels[r * columns + c] = i32::try_from(own).ok().filter(|v| (LOWEST..=HIGHEST).contains(v))?;
                }
            }
        }
    }
    Some(survey)
}

/// The survey whose stored form bytes are: what they say, stored again, is they.
pub fn survey(bytes: &[u8]) -> Option<Survey> {
    said(bytes).filter(|s| s.stored() == bytes)
}

/// Test: 3. Rows, columns, greatest and least.
pub fn test(bytes: &[u8]) -> (u32, u32, u32, i32, i32) {
    match survey(bytes) {
        None => (3, 0, 0, 0, 0),
        Some(s) => {
            let (greatest, least) = s.pair(s.whole()).unwrap();
            (0, s.rows as u32, s.columns as u32, greatest, least)
        }
    }
}
