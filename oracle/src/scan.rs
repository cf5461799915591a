//! The traverse scan, its inverse and the cell above, over their whole domain.

use crate::palette::{harness, scan_pos, scan_pos_inv};
use crate::port;
use crate::report::{below, Case, Report};

pub const SIZES: std::ops::RangeInclusive<u32> = 1..=32;

/// Scan place i of a block.
#[derive(Clone, Debug)]
pub struct Pos {
    pub i: u32,
    pub size: u32,
}

/// Row and column as the port answers them, in one number.
fn packed((col, row): (usize, usize)) -> u64 {
    row as u64 * 65536 + col as u64
}

impl Case for Pos {
    type Answer = u64;
    fn source(&self) -> u64 {
        packed(scan_pos(self.i as usize, self.size as usize))
    }
    fn port(&self) -> u64 {
        port::scan_pos(self.i as usize, self.size as usize)
    }
    fn smaller(&self) -> Vec<Pos> {
        let places = below(self.i).into_iter().map(|i| Pos { i, ..self.clone() });
        let sizes = below(self.size).into_iter().filter(|&s| s > 0).map(|size| Pos { size, ..self.clone() });
        places.chain(sizes).collect()
    }
}

/// Column and row of a block.
#[derive(Clone, Debug)]
pub struct Cell {
    pub col: u32,
    pub row: u32,
    pub size: u32,
}

impl Case for Cell {
    type Answer = u64;
    fn source(&self) -> u64 {
        scan_pos_inv(self.col as usize, self.row as usize, self.size as usize) as u64
    }
    fn port(&self) -> u64 {
        port::scan_pos_inv(self.col as usize, self.row as usize, self.size as usize)
    }
    fn smaller(&self) -> Vec<Cell> {
        let cols = below(self.col).into_iter().map(|col| Cell { col, ..self.clone() });
        let rows = below(self.row).into_iter().map(|row| Cell { row, ..self.clone() });
        cols.chain(rows).collect()
    }
}

/// The cell above scan place i: source 000 reads its index, so the indices are the places themselves.
#[derive(Clone, Debug)]
pub struct Above {
    pub i: u32,
    pub size: u32,
}

impl Case for Above {
    type Answer = u64;
    fn source(&self) -> u64 {
        let places: Vec<u32> = (0..self.size * self.size).collect();
        u64::from(harness::index_above(&places, self.i as usize, self.size as usize))
    }
    fn port(&self) -> u64 {
        port::place_above(self.i as usize, self.size as usize)
    }
    fn smaller(&self) -> Vec<Above> {
        below(self.i).into_iter().filter(|&i| i >= self.size).map(|i| Above { i, ..self.clone() }).collect()
    }
}

pub fn compare(report: &mut Report) {
    report.compare("scan", report.once(SIZES).flat_map(|size| (0..size * size).map(move |i| Pos { i, size })));
    report.compare(
        "scan-inverse",
        report.once(SIZES).flat_map(|size| (0..size).flat_map(move |row| (0..size).map(move |col| Cell { col, row, size }))),
    );
    report.compare("above", report.once(SIZES).flat_map(|size| (size..size * size).map(move |i| Above { i, size })));
}
