//! Plan files: the refusals 1 to 7.

use super::refused;

/// A plan file that has been accepted.
pub struct File<'a> {
    pub sx: u32,
    pub sy: u32,
    pub start: usize,
    pub records: &'a [[u8; 8]],
}

pub fn read(file: &[u8]) -> Result<File<'_>, u64> {
    let length = file.len();
    let Some(trailer) = file.last_chunk::<12>().filter(|_| length <= 65_536) else {
        return Err(refused(1, 0));
    };
    let &[s0, s1, s2, s3, c0, c1, sx, sy, ref tag @ ..] = trailer;
    if tag != b"HRTP" {
        return Err(refused(2, 0));
    }
    if !(1..=16).contains(&sx) || !(1..=16).contains(&sy) {
        return Err(refused(3, 0));
    }
    let count = u16::from_le_bytes([c0, c1]) as usize;
    if !(1..=256).contains(&count) {
        return Err(refused(4, 0));
    }
    let start = u32::from_le_bytes([s0, s1, s2, s3]) as usize;
    if start + 8 * count != length - 12 {
        return Err(refused(5, 0));
    }
    let records = file[start..length - 12].as_chunks::<8>().0;
    for (f, &[xs, ys, xd, yd, p0, p1, burst, p2]) in records.iter().enumerate() {
        if xs >= sx || xd >= sx || ys >= sy || yd >= sy {
            return Err(refused(6, f));
        }
        if p0 | p1 | p2 == 0 || burst == 0 {
            return Err(refused(7, f));
        }
    }
    Ok(File { sx: sx as u32, sy: sy as u32, start, records })
}

/// A record's six numbers. The last byte is the top one of the period.
pub fn numbers(&[xs, ys, xd, yd, p0, p1, burst, p2]: &[u8; 8]) -> [u32; 6] {
    let period = u32::from_le_bytes([p0, p1, p2, 0]);
    [xs as u32, ys as u32, xd as u32, yd as u32, period, burst as u32]
}
