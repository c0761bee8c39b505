//! The callout log, written and read as document 02's note 3 says, and the log store that a script's lines are about.

use crate::driver::Number;

/// The most bytes of a store that is written or read (note 3: "a store of at most 65,536 bytes").
const MAX_STORE: usize = 65_536;
/// The bytes of a record (note 3: "a 32-byte record").
const RECORD_LEN: usize = 32;
/// The bytes of a trailer (note 3: "a 16-byte trailer").
const TRAILER_LEN: usize = 16;
/// The verdicts that a record may have (note 3: "verdict (1: 0, 7, 9 or 10)").
const VERDICTS: [u64; 4] = [0, 7, 9, 10];
/// The greatest time of a record (note 3: "a record's time obeys rule 1").
const TIME_LIMIT: u64 = 4_000_000_000_000_000_000;

/// The number of a time above the limit that is to be written.
const TIME_ABOVE_LIMIT: Number = 1;
/// The number of an argument that cannot be taken.
const BAD_ARGUMENT: Number = 2;
/// The number of a bad trailer (note 3: "17 a trailer that breaks this rule, points before the front or lacks its 16 bytes").
const BAD_TRAILER: Number = 17;
/// The number of a bad record (note 3: "18 a record that breaks it").
const BAD_RECORD: Number = 18;
/// The number of a callout that does not fit (note 3: "19 a callout that the store's free end cannot hold").
const NO_ROOM: Number = 19;

/// One report of a callout; a script may give a verdict that no record can have.
#[derive(Debug, Clone, PartialEq, Eq)]
pub struct Report {
    pub time: u64,
    pub counter: u64,
    pub session: u64,
    pub index: u32,
    pub verdict: u64,
}

/// The log store and its used length, as the lines of a script change them.
pub(crate) struct Log {
    store: Vec<u8>,
    used: u64,
}

impl Log {
    /// A store of zero bytes without a callout.
    pub(crate) fn of_len(len: usize) -> Self {
        Self {
            store: vec![0; len],
            used: 0,
        }
    }

    /// The store of a driver that starts.
    pub(crate) fn at_start() -> Self {
        Self::of_len(MAX_STORE)
    }

    /// The bytes of the store.
    pub(crate) fn store(&self) -> &[u8] {
        &self.store
    }

    /// The used length that is handed in.
    pub(crate) fn used(&self) -> u64 {
        self.used
    }

    /// Sets the used length, whatever the store's length is.
    pub(crate) fn set_used(&mut self, used: u64) {
        self.used = used;
    }

    /// Puts bytes into the store where they fit.
    pub(crate) fn poke(&mut self, at: u64, bytes: &[u8]) -> Result<(), Number> {
        let at = place(&self.store, at, bytes.len() as u64)?;
        self.store[at..at + bytes.len()].copy_from_slice(bytes);

        Ok(())
    }

    /// Bytes of the store.
    pub(crate) fn peek(&self, at: u64, len: u64) -> Result<&[u8], Number> {
        let at = place(&self.store, at, len)?;

        Ok(&self.store[at..at + len as usize])
    }

    /// Appends a callout; the used length moves to its end and is answered.
    pub(crate) fn append(&mut self, callout: &[Report]) -> Result<u64, Number> {
        self.used = append(&mut self.store, self.used, callout)?;

        Ok(self.used)
    }

    /// Reads the callouts into lists that hold so many counts and so many records.
    pub(crate) fn walk(&self, counts: usize, records: usize) -> Result<Vec<Vec<Report>>, Number> {
        read(&self.store, self.used, counts, records)
    }
}

/// The place of so many bytes in a store, if they lie in it.
fn place(store: &[u8], at: u64, len: u64) -> Result<usize, Number> {
    let end = at.checked_add(len).ok_or(BAD_ARGUMENT)?;
    if end > store.len() as u64 {
        return Err(BAD_ARGUMENT);
    }

    Ok(at as usize)
}

/// The used length of a store that can be written or read (note 3: "a larger store, or a used length above the store's, is turned down by 2").
fn used_length(store: &[u8], used: u64) -> Result<usize, Number> {
    if store.len() > MAX_STORE || used > store.len() as u64 {
        return Err(BAD_ARGUMENT);
    }

    Ok(used as usize)
}

/// Writes a callout behind the used bytes and answers the new used length (note 3: "it checks 1, 2, then 19").
fn append(store: &mut [u8], used: u64, callout: &[Report]) -> Result<u64, Number> {
    if callout.iter().any(|report| report.time > TIME_LIMIT) {
        return Err(TIME_ABOVE_LIMIT);
    }
    let used = used_length(store, used)?;
    if callout.iter().any(|report| !has_verdict(report)) {
        return Err(BAD_ARGUMENT);
    }

    let bytes = callout_bytes(callout);
    let free = &mut store[used..];
    if bytes.len() > free.len() {
        return Err(NO_ROOM);
    }
    free[..bytes.len()].copy_from_slice(&bytes);

    Ok((used + bytes.len()) as u64)
}

/// Whether a report has one of the four verdicts.
fn has_verdict(report: &Report) -> bool {
    VERDICTS.contains(&report.verdict)
}

/// The bytes of a callout: its records front to back, then its trailer.
fn callout_bytes(callout: &[Report]) -> Vec<u8> {
    let mut bytes: Vec<u8> = callout.iter().flat_map(record_bytes).collect();
    let distance = TRAILER_LEN + RECORD_LEN * callout.len();

    bytes.extend((distance as u64).to_le_bytes());
    bytes.extend((callout.len() as u32).to_le_bytes());
    bytes.extend([0; 4]);
    bytes
}

/// The bytes of a record.
fn record_bytes(report: &Report) -> [u8; RECORD_LEN] {
    let mut bytes = [0; RECORD_LEN];
    bytes[..8].copy_from_slice(&report.time.to_le_bytes());
    bytes[8..16].copy_from_slice(&report.counter.to_le_bytes());
    bytes[16..24].copy_from_slice(&report.session.to_le_bytes());
    bytes[24..28].copy_from_slice(&report.index.to_le_bytes());
    bytes[28] = report.verdict as u8;

    bytes
}

/// Reads the callouts up to the used length, the newest first (note 3: "17 is looked for through the whole store before 18", "a
/// list lent to it that is too short gives 2, after 18").
fn read(
    store: &[u8],
    used: u64,
    counts: usize,
    records: usize,
) -> Result<Vec<Vec<Report>>, Number> {
    let used = used_length(store, used)?;
    let parts = parts_of(&store[..used])?;
    let callouts: Vec<Vec<Report>> = parts
        .into_iter()
        .map(reports_of)
        .collect::<Result<_, Number>>()?;

    let total: usize = callouts.iter().map(Vec::len).sum();
    if callouts.len() > counts || total > records {
        return Err(BAD_ARGUMENT);
    }

    Ok(callouts)
}

/// The bytes of each callout's records, from the last trailer to the front.
fn parts_of(mut log: &[u8]) -> Result<Vec<&[u8]>, Number> {
    let mut parts = Vec::new();

    while !log.is_empty() {
        let at = log.len().checked_sub(TRAILER_LEN).ok_or(BAD_TRAILER)?;
        let (before, trailer) = log.split_at(at);
        let distance = number_64(trailer, 0);
        let count = number_32(trailer, 8);
        let zero = number_32(trailer, 12);
        if zero != 0 || distance != 16 + 32 * u64::from(count) {
            return Err(BAD_TRAILER);
        }
        if distance > log.len() as u64 {
            return Err(BAD_TRAILER);
        }
        let first = log.len() - distance as usize;

        parts.push(&before[first..]);
        log = &log[..first];
    }

    Ok(parts)
}

/// The reports of a callout's records, front to back.
fn reports_of(records: &[u8]) -> Result<Vec<Report>, Number> {
    records.chunks(RECORD_LEN).map(report_of).collect()
}

/// The report of a record (note 3: "the reader turns down both by 18", the time and the verdict).
fn report_of(record: &[u8]) -> Result<Report, Number> {
    let report = Report {
        time: number_64(record, 0),
        counter: number_64(record, 8),
        session: number_64(record, 16),
        index: number_32(record, 24),
        verdict: u64::from(record[28]),
    };
    let zero = &record[29..];
    if report.time > TIME_LIMIT || !has_verdict(&report) || zero != [0; 3] {
        return Err(BAD_RECORD);
    }

    Ok(report)
}

/// The number of four little-endian bytes at a place.
fn number_32(bytes: &[u8], at: usize) -> u32 {
    let bytes = bytes[at..at + 4].try_into().expect("four bytes");

    u32::from_le_bytes(bytes)
}

/// The number of eight little-endian bytes at a place.
fn number_64(bytes: &[u8], at: usize) -> u64 {
    let bytes = bytes[at..at + 8].try_into().expect("eight bytes");

    u64::from_le_bytes(bytes)
}

#[cfg(test)]
mod tests {
    use super::*;

    /// A report whose fields tell its place.
    fn report(at: u64) -> Report {
        Report {
            time: 1_000_000 * at,
            counter: at * at,
            session: u64::MAX - at,
            index: (at as u32).wrapping_mul(0x0102_0304),
            verdict: VERDICTS[at as usize % 4],
        }
    }

    /// A store with callouts of so many reports, oldest first, and its used length.
    fn log_of(store: usize, counts: &[usize]) -> (Log, Vec<Vec<Report>>) {
        let mut log = Log::of_len(store);
        let mut at = 0;
        let mut callouts = Vec::new();

        for count in counts {
            let callout: Vec<Report> = (0..*count as u64).map(|k| report(at + k)).collect();
            at += callout.len() as u64;
            log.append(&callout).expect("room for the callout");
            callouts.push(callout);
        }

        (log, callouts)
    }

    #[test]
    fn what_is_appended_reads_back_newest_first() {
        for counts in [
            &[][..],
            &[0],
            &[3],
            &[2, 0, 1],
            &[0, 0],
            &[1_500, 0, 540, 2],
        ] {
            let (log, mut callouts) = log_of(MAX_STORE, counts);
            callouts.reverse();
            assert_eq!(log.walk(4_096, 2_048), Ok(callouts));
        }
    }

    #[test]
    fn a_log_that_is_read_is_what_the_writer_makes_of_it() {
        let (good, _) = log_of(160, &[2, 0, 1]);
        let len = good.used() as usize;
        let mut accepted = 0;

        for at in 0..len {
            for change in 1..=255 {
                let mut store = good.store().to_vec();
                store[at] ^= change;
                let Ok(mut callouts) = read(&store, len as u64, 3, 3) else {
                    continue;
                };
                callouts.reverse();
                let bytes: Vec<u8> = callouts.iter().flat_map(|c| callout_bytes(c)).collect();
                assert_eq!(bytes, store[..len]);
                accepted += 1;
            }
        }

        assert!(accepted > 10_000, "{accepted}");
    }

    #[test]
    fn the_fields_lie_where_the_note_says() {
        let (log, _) = log_of(80, &[1]);
        let callout = [Report {
            time: 0x0807_0605_0403_0201,
            counter: 0x1817_1615_1413_1211,
            session: 0x2827_2625_2423_2221,
            index: 0x3433_3231,
            verdict: 10,
        }];
        let mut expected: Vec<u8> = [1, 17, 33].iter().flat_map(|b| *b..*b + 8).collect();
        expected.extend([0x31, 0x32, 0x33, 0x34, 10, 0, 0, 0]);
        expected.extend([48, 0, 0, 0, 0, 0, 0, 0, 1, 0, 0, 0, 0, 0, 0, 0]);

        assert_eq!(callout_bytes(&callout), expected);
        assert_eq!(log.used(), 48);
    }

    #[test]
    fn a_full_store_holds_2047_records_or_4096_empty_callouts() {
        let (log, _) = log_of(MAX_STORE, &[2_047, 0]);
        assert_eq!(log.used(), 65_536);
        assert_eq!(log.walk(2, 2_046), Err(BAD_ARGUMENT));
        assert_eq!(log.walk(2, 2_047).map(|callouts| callouts.len()), Ok(2));

        let (mut log, _) = log_of(MAX_STORE, &[0; 4_096]);
        assert_eq!(log.used(), 65_536);
        assert_eq!(log.append(&[]), Err(NO_ROOM));
        assert_eq!(log.walk(4_095, 0), Err(BAD_ARGUMENT));
        assert_eq!(log.walk(4_096, 0).map(|callouts| callouts.len()), Ok(4_096));
    }

    #[test]
    fn a_refused_append_changes_nothing() {
        let bad_time = Report {
            time: TIME_LIMIT + 1,
            ..report(1)
        };
        let bad_verdict = Report {
            verdict: 263,
            ..report(1)
        };
        let cases = [
            (vec![bad_verdict.clone(), bad_time], TIME_ABOVE_LIMIT),
            (vec![report(1), report(2), bad_verdict], BAD_ARGUMENT),
            (vec![report(1), report(2)], NO_ROOM),
        ];

        for (callout, number) in cases {
            let (mut log, _) = log_of(127, &[1]);
            let before = (log.store().to_vec(), log.used());
            assert_eq!(log.append(&callout), Err(number));
            assert_eq!((log.store().to_vec(), log.used()), before);
        }
    }
}
