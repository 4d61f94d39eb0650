//! Window, burst, flight bound and notes.

use super::plan::{File, numbers, read};
use super::{offset, refused};

/// A flow's row in its bit, unless the flow goes straight down its column.
fn turn(&[xs, ys, xd, ..]: &[u8; 8]) -> u32 {
    ((xs != xd) as u32) << (ys & 15)
}

/// For each column the rows that turn for it, row y in bit y.
fn turning(file: &File) -> [u32; 16] {
    let mut rows = [0; 16];
    for record in file.records {
        rows[(record[2] & 15) as usize] |= turn(record);
    }
    rows
}

/// How many of these rows are among the first r south of row y: the word twice in a row, from bit y + 1 on.
fn among(rows: u32, sy: u32, y: u32, r: u32) -> u32 {
    let south = (rows | rows << sy) >> (y + 1);
    (south & ((1 << r) - 1)).count_ones()
}

/// The spread of a flow at the source (x, y) of another whose port is E or S. These rows turn for it.
fn spread(file: &File, rows: u32, [x, y]: [u32; 2], east: bool, g: [u32; 6]) -> Option<u32> {
    let [xs, ys, xd, yd, ..] = g;
    if xs == x && ys == y {
        return Some(0);
    }
    let r = offset(ys, y, file.sy);
    if east && r == 0 {
        let j = offset(xs, x, file.sx);
        return (1 <= j && j <= offset(xs, xd, file.sx)).then_some(0);
    }
    let (meets, passed) = if east { (rows >> y & 1 == 1, r - 1) } else { (xd == x, r) };
    (meets && r <= offset(ys, yd, file.sy)).then(|| among(rows, file.sy, ys, passed) * file.sx)
}

/// The least window with room for so many packets: after a failed t the next to try is I(t) and they, since I never
/// falls. Where the rivals' rates fill the link there is none.
fn least_window(file: &File, f: usize, packets: u32) -> Option<u32> {
    let turning = turning(file);
    let [x, y, xd, ..] = numbers(&file.records[f]);
    let mut rivals = [(0, 1); 256];
    let (mut count, mut burst, mut rates) = (0, 0, 0u32);
    for (g, record) in file.records.iter().enumerate() {
        let flow = numbers(record);
        if g != f
            && let Some(spread) =
                spread(file, turning[(flow[2] & 15) as usize], [x, y], x != xd, flow)
        {
            rivals[count] = (spread, flow[4]);
            count += 1;
            burst += flow[5];
            rates += (1 << 31) / flow[4];
            if rates >= 1 << 31 {
                return None;
            }
        }
    }
    let mut t = 1;
    while t <= 65_535 {
        let rate: u32 =
            rivals[..count].iter().map(|&(spread, period)| (t - 1 + spread).div_ceil(period)).sum();
        let demand = burst + rate + packets;
        if demand <= t {
            return Some(t);
        }
        t = demand;
    }
    None
}

pub fn window(file: &[u8], flow: u32) -> u32 {
    let file = match read(file) {
        Ok(file) => file,
        Err(no) => return 65_536 + (no >> 32) as u32,
    };
    let f = flow as usize;
    if f >= file.records.len() {
        return 65_536 + 12;
    }
    least_window(&file, f, 1).unwrap_or(65_536 + 14)
}

pub fn burst(file: &[u8], flow: u32, packets: u32) -> u64 {
    let file = match read(file) {
        Ok(file) => file,
        Err(no) => return no,
    };
    let f = flow as usize;
    let Some(record) = file.records.get(f) else {
        return refused(12, 0);
    };
    let [.., burst] = numbers(record);
    if packets == 0 || packets > burst {
        return refused(20, 0);
    }
    least_window(&file, f, packets).map_or(refused(14, f), u64::from)
}

pub fn flight(file: &[u8], flow: u32) -> u64 {
    let file = match read(file) {
        Ok(file) => file,
        Err(no) => return no,
    };
    let Some(record) = file.records.get(flow as usize) else {
        return refused(12, 0);
    };
    let [xs, ys, xd, yd, ..] = numbers(record);
    let (dx, dy) = (offset(xs, xd, file.sx), offset(ys, yd, file.sy));
    let rows = file.records.iter().filter(|other| other[2] == record[2]).map(turn);
    let most = among(rows.fold(0, |rows, row| rows | row), file.sy, ys, dy);
    (dx + dy + most * file.sx + 2) as u64
}

pub fn notes(file: &[u8]) -> u64 {
    read(file).map_or_else(|no| no, |file| file.start as u64)
}
