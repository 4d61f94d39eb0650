//! Plan files, by 01's "Torus and plan file" with U5's periods, and the refusals 1 to 7.
//! Numbers are integers here (i64), so that nothing wraps.

use crate::book::PER_DELIVERY;
use crate::state::size;

/// What a refused call returns: a number of 01's table and a place.
#[derive(Clone, Copy, Debug, PartialEq, Eq)]
pub struct Refusal {
    pub number: u64,
    pub place: u64,
}

pub fn refuse<T>(number: u64, place: usize) -> Result<T, Refusal> {
    let place = place as u64;
    Err(Refusal { number, place })
}

/// One flow: its six plan numbers in record order.
#[derive(Clone, Copy, Debug, PartialEq, Eq)]
pub struct Flow {
    pub xs: i64,
    pub ys: i64,
    pub xd: i64,
    pub yd: i64,
    pub period: i64,
    pub burst: i64,
}

impl Flow {
    pub fn numbers(&self) -> [i64; 6] {
        [self.xs, self.ys, self.xd, self.yd, self.period, self.burst]
    }

    pub fn from_numbers([xs, ys, xd, yd, period, burst]: [i64; 6]) -> Flow {
        Flow { xs, ys, xd, yd, period, burst }
    }

    /// Its record. Numbers that don't fit their bytes lose their high part.
    fn record(&self) -> [u8; RECORD] {
        let [xs, ys, xd, yd, _, burst] = self.numbers().map(|number| number as u8);
        let [low, middle, top, ..] = self.period.to_le_bytes();
        [xs, ys, xd, yd, low, middle, burst, top]
    }
}

#[derive(Clone, Copy, Debug, PartialEq, Eq)]
pub enum Port {
    East,
    South,
}

#[derive(Clone, Debug, PartialEq, Eq)]
pub struct Plan {
    pub sx: i64,
    pub sy: i64,
    pub flows: Vec<Flow>,
}

pub const MOST_BYTES: usize = 65_536;
pub const TRAILER: usize = 12;
pub const RECORD: usize = 8;
/// The longest period: three bytes.
pub const MOST_PERIOD: i64 = 16_777_215;

impl Plan {
    /// The plan of flows with these numbers.
    pub fn of(sx: i64, sy: i64, flows: &[[i64; 6]]) -> Plan {
        Plan { sx, sy, flows: flows.iter().map(|&numbers| Flow::from_numbers(numbers)).collect() }
    }

    /// ΔX of flow f.
    pub fn dx(&self, f: usize) -> i64 {
        (self.flows[f].xd - self.flows[f].xs).rem_euclid(self.sx)
    }

    /// ΔY of flow f.
    pub fn dy(&self, f: usize) -> i64 {
        (self.flows[f].yd - self.flows[f].ys).rem_euclid(self.sy)
    }

    /// The flight of a packet of flow f with so many deflections.
    pub fn flight(&self, f: usize, deflections: i64) -> i64 {
        self.dx(f) + self.dy(f) + deflections * self.sx + 2
    }

    pub fn port(&self, f: usize) -> Port {
        if self.dx(f) > 0 { Port::East } else { Port::South }
    }

    pub fn routers(&self) -> usize {
        (self.sx * self.sy) as usize
    }

    /// How many words the state of this plan has.
    pub fn state_words(&self) -> usize {
        size(self.flows.len(), self.routers())
    }

    /// How many words a step must be lent for its deliveries.
    pub fn delivery_words(&self) -> usize {
        PER_DELIVERY * self.routers()
    }

    /// How long the plan file with so many bytes of notes is.
    pub fn file_bytes(&self, notes: usize) -> usize {
        notes + RECORD * self.flows.len() + TRAILER
    }

    /// The plan file with these notes.
    pub fn file(&self, notes: &[u8]) -> Vec<u8> {
        let records: Vec<_> = self.flows.iter().map(Flow::record).collect();
        file_of(notes, &records, self.sx as u8, self.sy as u8)
    }
}

/// The plan file with these notes and records.
pub fn file_of(notes: &[u8], records: &[[u8; RECORD]], sx: u8, sy: u8) -> Vec<u8> {
    let mut file = [notes, records.as_flattened()].concat();
    file.extend((notes.len() as u32).to_le_bytes());
    file.extend((records.len() as u16).to_le_bytes());
    file.extend([sx, sy]);
    file.extend(b"HRTP");
    file
}

/// The file with each record changed in this way. What has no records stays.
pub fn change_records(file: &[u8], change: impl Fn(&mut [u8; RECORD])) -> Vec<u8> {
    let mut file = file.to_vec();
    if let Some((body, trailer)) = file.split_last_chunk_mut::<TRAILER>()
        && let Some(records) = body.get_mut(little_endian(&trailer[..4])..)
    {
        records.as_chunks_mut().0.iter_mut().for_each(change);
    }
    file
}

fn little_endian(bytes: &[u8]) -> usize {
    bytes.iter().rev().fold(0, |number, &byte| 256 * number + byte as usize)
}

/// Reads a plan file: the plan and the notes, or the first refusal of 1 to 7.
pub fn read(file: &[u8]) -> Result<(Plan, &[u8]), Refusal> {
    if file.len() < TRAILER || file.len() > MOST_BYTES {
        return refuse(1, 0);
    }
    let (body, trailer) = file.split_at(file.len() - TRAILER);
    if &trailer[8..12] != b"HRTP" {
        return refuse(2, 0);
    }
    let (sx, sy) = (trailer[6] as i64, trailer[7] as i64);
    if !(1..=16).contains(&sx) || !(1..=16).contains(&sy) {
        return refuse(3, 0);
    }
    let count = little_endian(&trailer[4..6]);
    if count == 0 || count > 256 {
        return refuse(4, 0);
    }
    let start = little_endian(&trailer[0..4]);
    if start + RECORD * count != body.len() {
        return refuse(5, 0);
    }
    let (notes, records) = body.split_at(start);
    let mut flows = Vec::new();
    for (f, record) in records.chunks(RECORD).enumerate() {
        let [xs, ys, xd, yd] = [0, 1, 2, 3].map(|i| record[i] as i64);
        if xs >= sx || xd >= sx || ys >= sy || yd >= sy {
            return refuse(6, f);
        }
        let period = little_endian(&[record[4], record[5], record[7]]) as i64;
        let burst = record[6] as i64;
        if period == 0 || burst == 0 {
            return refuse(7, f);
        }
        flows.push(Flow { xs, ys, xd, yd, period, burst });
    }
    Ok((Plan { sx, sy, flows }, notes))
}
