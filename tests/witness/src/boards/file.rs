//! A trace file: free bytes, records of 12 bytes, a trailer of 12 bytes.

/// The length of a record and of the trailer.
pub const TRAILER: usize = 12;
pub const MOST_BYTES: usize = 16_777_216;
const SIGN: [u8; 4] = [0x54, 0x52, 0x41, 0x4C];

#[derive(Clone, Copy, PartialEq, Eq, Debug)]
pub struct BoardRecord {
    pub tick: u32,
    pub value: u32,
    pub process: u8,
    /// 0 step, 1 LL, 2 SC, 3 VL.
    pub order: u8,
    /// Two zero bytes, if the record is right.
    pub zeros: [u8; 2],
}

impl BoardRecord {
    fn read(bytes: &[u8]) -> BoardRecord {
        BoardRecord {
            tick: number(&bytes[0..4]),
            value: number(&bytes[4..8]),
            process: bytes[8],
            order: bytes[9],
            zeros: [bytes[10], bytes[11]],
        }
    }

    fn written(&self) -> Vec<u8> {
        let mut bytes = self.tick.to_le_bytes().to_vec();
        bytes.extend(self.value.to_le_bytes());
        bytes.extend([self.process, self.order]);
        bytes.extend(self.zeros);
        bytes
    }

    fn is_right(&self) -> bool {
        self.order <= 3 && self.zeros == [0, 0] && (self.value == 0 || self.order == 2)
    }
}

/// The records, right or not; 25 for a bad trailer or a file too long.
pub fn records_in(file: &[u8]) -> Result<Vec<BoardRecord>, u8> {
    if file.len() < TRAILER || file.len() > MOST_BYTES {
        return Err(25);
    }
    let (before, trailer) = file.split_at(file.len() - TRAILER);
    let (offset, count) = (number(&trailer[0..4]), number(&trailer[4..8]));
    let end = u64::from(offset) + 12 * u64::from(count);
    if trailer[8..] != SIGN || end != before.len() as u64 {
        return Err(25);
    }
    let records = before[offset as usize..].chunks(12);
    Ok(records.map(BoardRecord::read).collect())
}

/// 26 for a bad record or a falling tick.
pub fn check_records(records: &[BoardRecord]) -> Result<(), u8> {
    let falls = records.windows(2).any(|two| two[1].tick < two[0].tick);
    if falls || records.iter().any(|record| !record.is_right()) {
        return Err(26);
    }
    Ok(())
}

/// A file with these bytes before its records.
pub fn written(free: &[u8], records: &[BoardRecord]) -> Vec<u8> {
    let mut file = free.to_vec();
    file.extend(records.iter().flat_map(BoardRecord::written));
    file.extend((free.len() as u32).to_le_bytes());
    file.extend((records.len() as u32).to_le_bytes());
    file.extend(SIGN);
    file
}

/// "Numbers go low byte first."
fn number(bytes: &[u8]) -> u32 {
    bytes
        .iter()
        .rev()
        .fold(0, |n, byte| (n << 8) | u32::from(*byte))
}
