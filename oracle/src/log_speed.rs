//! The cases of the program `bench` on a callout log, with a plain writer and reader over slices that make the same checks in
//! the same order: a callout is appended over and over near the front of a store, or a log is read over and over.

/// The bytes of a store.
const STORE: usize = 65_536;
/// The bytes of a record.
const RECORD: usize = 32;
/// The bytes of a trailer.
const TRAILER: usize = 16;
/// The greatest time of a record.
const TIME_LIMIT: u64 = 4_000_000_000_000_000_000;
/// The most records in a callout.
const RECORDS: usize = 2_047;
/// The number of callouts in the longest log that is read.
const CALLOUTS: usize = 1_365;

/// The reports of a callout, list beside list.
struct Reports<'a> {
    times: &'a [u64],
    counters: &'a [u64],
    session_ids: &'a [u64],
    local_indices: &'a [u32],
    verdicts: &'a [u8],
}

/// The lists that a log is read into.
struct Lists {
    counts: Vec<u32>,
    times: Vec<u64>,
    counters: Vec<u64>,
    session_ids: Vec<u64>,
    local_indices: Vec<u32>,
    verdicts: Vec<u8>,
}

/// Whether a number is a verdict that a record may have.
fn is_verdict(verdict: u8) -> bool {
    matches!(verdict, 0 | 7 | 9 | 10)
}

/// The number of eight bytes at a place.
fn u64_at(bytes: &[u8], at: usize) -> u64 {
    u64::from_le_bytes(bytes[at..at + 8].try_into().expect("eight bytes"))
}

/// The number of four bytes at a place.
fn u32_at(bytes: &[u8], at: usize) -> u32 {
    u32::from_le_bytes(bytes[at..at + 4].try_into().expect("four bytes"))
}

/// Appends a callout behind the used length of a store and answers the new one, or the number that turns it down.
fn append(store: &mut [u8], used: usize, reports: &Reports) -> Result<usize, u8> {
    let count = reports.times.len();

    if reports.times.iter().any(|time| *time > TIME_LIMIT) {
        return Err(1);
    }
    if store.len() > STORE || used > store.len() {
        return Err(2);
    }
    if reports.counters.len() != count
        || reports.session_ids.len() != count
        || reports.local_indices.len() != count
        || reports.verdicts.len() != count
    {
        return Err(2);
    }
    if !reports.verdicts.iter().copied().all(is_verdict) {
        return Err(2);
    }
    let distance = TRAILER + RECORD * count;
    let Some(bytes) = store[used..].get_mut(..distance) else {
        return Err(19);
    };
    let (records, trailer) = bytes.split_at_mut(RECORD * count);
    let lists = reports
        .times
        .iter()
        .zip(reports.counters)
        .zip(reports.session_ids)
        .zip(reports.local_indices)
        .zip(reports.verdicts);
    for (record, ((((time, counter), session_id), local_index), verdict)) in
        records.chunks_exact_mut(RECORD).zip(lists)
    {
        record[..8].copy_from_slice(&time.to_le_bytes());
        record[8..16].copy_from_slice(&counter.to_le_bytes());
        record[16..24].copy_from_slice(&session_id.to_le_bytes());
        record[24..28].copy_from_slice(&local_index.to_le_bytes());
        record[28..].copy_from_slice(&u32::from(*verdict).to_le_bytes());
    }
    trailer[..8].copy_from_slice(&(distance as u64).to_le_bytes());
    trailer[8..12].copy_from_slice(&(count as u32).to_le_bytes());
    trailer[12..].copy_from_slice(&[0; 4]);

    Ok(used + distance)
}

/// The number of records that the trailer at the end of the bytes says, if it keeps its rule.
fn trailer(bytes: &[u8]) -> Option<usize> {
    let at = bytes.len().checked_sub(TRAILER)?;
    let (distance, count) = (u64_at(bytes, at), u32_at(bytes, at + 8));
    let right = distance == TRAILER as u64 + RECORD as u64 * u64::from(count)
        && u32_at(bytes, at + 12) == 0
        && distance <= bytes.len() as u64;

    right.then_some(count as usize)
}

/// Whether a record keeps its rule.
fn is_record(record: &[u8]) -> bool {
    u64_at(record, 0) <= TIME_LIMIT && is_verdict(record[28]) && record[29..] == [0; 3]
}

/// The callouts of a log with good trailers, the last one first: the bytes of their records.
fn callouts(mut bytes: &[u8]) -> impl Iterator<Item = &[u8]> {
    std::iter::from_fn(move || {
        let end = bytes.len().checked_sub(TRAILER)?;
        let start = end - RECORD * u32_at(bytes, end + 8) as usize;
        let records = &bytes[start..end];
        bytes = &bytes[..start];

        Some(records)
    })
}

/// Reads a log into the lists and answers how many callouts it has, or the number that turns it down.
fn read(store: &[u8], used: usize, lists: &mut Lists) -> Result<usize, u8> {
    if store.len() > STORE || used > store.len() {
        return Err(2);
    }
    let log = &store[..used];
    let (mut bytes, mut found, mut records) = (log, 0, 0);
    while !bytes.is_empty() {
        let count = trailer(bytes).ok_or(17)?;
        bytes = &bytes[..bytes.len() - TRAILER - RECORD * count];
        found += 1;
        records += count;
    }
    for callout in callouts(log) {
        if !callout.chunks_exact(RECORD).all(is_record) {
            return Err(18);
        }
    }
    if lists.counts.len() < found
        || lists.times.len() < records
        || lists.counters.len() < records
        || lists.session_ids.len() < records
        || lists.local_indices.len() < records
        || lists.verdicts.len() < records
    {
        return Err(2);
    }
    let mut at = 0;
    for (callout, count) in callouts(log).zip(&mut lists.counts) {
        *count = (callout.len() / RECORD) as u32;
        for record in callout.chunks_exact(RECORD) {
            lists.times[at] = u64_at(record, 0);
            lists.counters[at] = u64_at(record, 8);
            lists.session_ids[at] = u64_at(record, 16);
            lists.local_indices[at] = u32_at(record, 24);
            lists.verdicts[at] = record[28];
            at += 1;
        }
    }

    Ok(found)
}

/// So many numbers that are a step apart.
fn steps(count: usize, step: u64) -> Vec<u64> {
    (0..count as u64)
        .map(|place| place.wrapping_mul(step))
        .collect()
}

/// The number of records in a callout.
fn records_of(letter: u8) -> usize {
    match letter {
        b'1' => 1,
        b'2' => 64,
        b'3' => 1_024,
        _ => RECORDS,
    }
}

/// Carries out a case: the sum of what is answered and of the bytes that are written, or of the numbers that are read.
pub(crate) fn logs(case: u8, pattern: u8, length: u8, turns: usize) -> u64 {
    let count = records_of(length);
    let (times, counters) = (
        steps(count, 1_000_000_007),
        steps(count, 0x0102_0304_0506_0708),
    );
    let session_ids = steps(count, 3);
    let local_indices: Vec<_> = (0..count as u32)
        .map(|place| place.wrapping_mul(0x0102_0304))
        .collect();
    let verdicts: Vec<_> = [0, 7, 9, 10].into_iter().cycle().take(count).collect();
    let reports = Reports {
        times: &times,
        counters: &counters,
        session_ids: &session_ids,
        local_indices: &local_indices,
        verdicts: &verdicts,
    };
    let mut store = vec![0; STORE];

    if case == b'a' {
        return appends(&mut store, &reports, turns);
    }
    let callouts = if pattern == b'c' { CALLOUTS } else { 1 };
    let used = (0..callouts).fold(0, |used, _| append(&mut store, used, &reports).unwrap_or(0));
    reads(&store, used, turns)
}

/// Appends of one callout, each at one of the first sixteen places.
fn appends(store: &mut [u8], reports: &Reports, turns: usize) -> u64 {
    let mut total = 0u64;

    for turn in 0..turns {
        let used = append(store, turn % 16, reports).unwrap_or(0);
        total = total.wrapping_add(used as u64);
    }

    total.wrapping_add(store.iter().copied().map(u64::from).sum())
}

/// Reads of the log, and the sum of what the lists hold in the end.
fn reads(store: &[u8], used: usize, turns: usize) -> u64 {
    let mut lists = Lists {
        counts: vec![0; 4_096],
        times: vec![0; 2_048],
        counters: vec![0; 2_048],
        session_ids: vec![0; 2_048],
        local_indices: vec![0; 2_048],
        verdicts: vec![0; 2_048],
    };
    let mut total = 0u64;

    for _ in 0..turns {
        total = total.wrapping_add(
            read(store, used, &mut lists).map_or_else(u64::from, |found| found as u64),
        );
    }

    total.wrapping_add(lists.sum())
}

impl Lists {
    /// The sum of all numbers; those of 32 bits are summed in 32 bits.
    fn sum(&self) -> u64 {
        let narrow = |list: &[u32]| u64::from(list.iter().copied().fold(0, u32::wrapping_add));
        let wide = |list: &[u64]| list.iter().copied().fold(0, u64::wrapping_add);
        let verdicts = self.verdicts.iter().copied().map(u64::from).sum();

        [
            narrow(&self.counts),
            wide(&self.times),
            wide(&self.counters),
            wide(&self.session_ids),
            narrow(&self.local_indices),
            verdicts,
        ]
        .into_iter()
        .fold(0, u64::wrapping_add)
    }
}
