use super::*;
use crate::draw::Draw;
use crate::{Answer, JobList, MemoryStore, Room, Runner, Settings};
use std::collections::BTreeMap;

/// What an output holds before a join: no byte of the data does.
const OLD: u8 = 0xee;
/// How many bytes before and after an output are looked at.
const AROUND: usize = 40;
/// The last offset that a byte can have.
const LAST: u64 = u64::MAX - 1;

/// A joined sheet: its rows, and the bytes of all of them.
type Sheet = (Vec<SheetWrite>, Vec<u8>);

fn write(offset: u64, start: u64, length: u64) -> SheetWrite {
    SheetWrite { offset, start, length }
}

/// Bytes of which neighbours differ, and those that stand further apart mostly.
fn bytes_of(length: usize) -> Vec<u8> {
    (0..length).map(|i| (i % 238) as u8).collect()
}

/// The request's sentences, byte by byte: which byte each offset has after the writes, the later one's where two cover
/// it; bytes that follow each other are a range. Or the number of the refusal, 220 before 219.
fn plain(writes: &[SheetWrite], data: &[u8], output_length: usize) -> Result<Sheet, u8> {
    let sum = |a: u64, b: u64| u128::from(a) + u128::from(b);
    let is_wrong = |write: &SheetWrite| {
        write.length == 0
            || sum(write.offset, write.length) > u128::from(u64::MAX)
            || sum(write.start, write.length) > data.len() as u128
    };
    if writes.len() > 64 || writes.iter().any(is_wrong) {
        return Err(220);
    }
    let mut content = BTreeMap::new();
    for write in writes {
        for i in 0..write.length {
            content.insert(write.offset + i, data[(write.start + i) as usize]);
        }
    }
    if output_length < content.len() {
        return Err(219);
    }
    let mut rows: Vec<SheetWrite> = Vec::new();
    for (start, offset) in content.keys().enumerate() {
        match rows.last_mut() {
            Some(row) if row.offset + row.length == *offset => row.length += 1,
            _ => rows.push(SheetWrite { offset: *offset, start: start as u64, length: 1 }),
        }
    }
    Ok((rows, content.into_values().collect()))
}

/// The words that the library's reply has beside the number.
fn reply_words(outcome: &Result<Sheet, u8>) -> (u64, u64, [u64; 4]) {
    match outcome {
        Ok((rows, bytes)) => (0, 2, [rows.len() as u64, bytes.len() as u64, 0, 0]),
        Err(number) => (u64::from(*number), 0, [0; 4]),
    }
}

/// Joins by the library and by the plain rules, into an output of this length: the same rows and bytes, or the same
/// refusal. Whatever of the output and of the list of joined writes has not got a byte or a row is as it was, and so
/// are the bytes around the output.
fn compared(writes: &[SheetWrite], data: &[u8], output_length: usize) -> Result<Sheet, u8> {
    let wanted = plain(writes, data, output_length);
    let mut buffer = vec![OLD; AROUND + output_length + AROUND];
    let joined = join(writes, data, &mut buffer[AROUND..AROUND + output_length]);
    let found = joined.map(|joined| {
        let bytes = buffer[AROUND..][..joined.bytes()].to_vec();
        (joined.writes().to_vec(), bytes)
    });
    assert_eq!(found.map_err(Refusal::number), wanted, "{writes:?}, data of {}, {output_length}", data.len());
    let bytes = wanted.as_ref().map_or(&[][..], |sheet| &sheet.1);
    assert!(buffer[..AROUND].iter().chain(&buffer[AROUND + bytes.len()..]).all(|&byte| byte == OLD), "{writes:?}");
    compare_rows(writes, data, output_length, &wanted);
    wanted
}

/// The same call, on a list of joined writes that holds something before it.
fn compare_rows(writes: &[SheetWrite], data: &[u8], output_length: usize, wanted: &Result<Sheet, u8>) {
    let old = write(u64::MAX, u64::MAX, u64::MAX);
    let (mut rows, mut buffer) = ([old; SHEET_WRITES], vec![OLD; output_length + AROUND]);
    let reply = raw::join_sheet(writes, data, &mut buffer[..output_length], &mut rows);
    assert_eq!((reply.number, reply.count, reply.value), reply_words(wanted));
    let joined = wanted.as_ref().map_or(&[][..], |sheet| &sheet.0);
    assert_eq!(rows[..joined.len()], *joined);
    assert!(rows[joined.len()..].iter().all(|row| *row == old), "{writes:?}");
}

/// Compares with an output that is longer than all lengths together, with one that is as long as the joined bytes, and
/// with one that is a byte shorter.
fn compared_tight(writes: &[SheetWrite], data: &[u8]) -> Result<Sheet, u8> {
    let lengths: u64 = writes.iter().map(|write| write.length.min(data.len() as u64)).sum();
    let outcome = compared(writes, data, lengths as usize + 7);
    if let Ok((_, bytes)) = &outcome {
        assert_eq!(compared(writes, data, bytes.len()), outcome);
        if !bytes.is_empty() {
            assert_eq!(compared(writes, data, bytes.len() - 1), Err(219));
            assert_eq!(compared(writes, data, 0), Err(219));
        }
    }
    outcome
}

/// Offsets and lengths of the ranges that these offsets and lengths are joined to, each write with bytes of its own.
fn ranges(writes: &[(u64, u64)]) -> Vec<(u64, u64)> {
    let mut start = 0;
    let sheet: Vec<SheetWrite> = writes
        .iter()
        .map(|&(offset, length)| {
            start += length;
            write(offset, start - length, length)
        })
        .collect();
    let (rows, _) = compared_tight(&sheet, &bytes_of(start as usize)).unwrap();
    rows.iter().map(|row| (row.offset, row.length)).collect()
}

#[test]
fn no_writes_are_joined_to_none() {
    assert_eq!(compared_tight(&[], &[]), Ok((vec![], vec![])));
    assert_eq!(compared(&[], &bytes_of(9), 9), Ok((vec![], vec![])));
    let joined = join(&[], &[], &mut []).unwrap();
    assert_eq!((joined.writes(), joined.bytes()), (&[][..], 0));
}

#[test]
fn ranges_that_touch_become_one_and_others_stay_apart() {
    assert_eq!(ranges(&[(10, 5), (15, 3)]), [(10, 8)]);
    assert_eq!(ranges(&[(15, 3), (10, 5)]), [(10, 8)]);
    assert_eq!(ranges(&[(10, 5), (16, 3)]), [(10, 5), (16, 3)]);
    assert_eq!(ranges(&[(16, 3), (10, 5)]), [(10, 5), (16, 3)]);
    assert_eq!(ranges(&[(10, 5), (20, 5), (15, 5)]), [(10, 15)]);
    assert_eq!(ranges(&[(0, 1), (2, 1), (4, 1), (1, 1), (3, 1)]), [(0, 5)]);
}

#[test]
fn writes_that_overlap_nest_or_are_the_same_become_one() {
    assert_eq!(ranges(&[(10, 5), (14, 3)]), [(10, 7)]);
    assert_eq!(ranges(&[(10, 9), (12, 3)]), [(10, 9)]);
    assert_eq!(ranges(&[(12, 3), (10, 9)]), [(10, 9)]);
    assert_eq!(ranges(&[(10, 9), (10, 9)]), [(10, 9)]);
    assert_eq!(ranges(&[(10, 9), (10, 3), (16, 3)]), [(10, 9)]);
    assert_eq!(ranges(&[(10, 9), (30, 2), (12, 1)]), [(10, 9), (30, 2)]);
}

#[test]
fn where_two_cover_a_byte_the_later_one_wins() {
    let joined = |writes: &[SheetWrite]| compared_tight(writes, b"aaaaaBBBcc").unwrap().1;
    let (long, short, two) = (write(100, 0, 5), write(101, 5, 3), write(103, 8, 2));
    assert_eq!(joined(&[long, short]), b"aBBBa");
    assert_eq!(joined(&[short, long]), b"aaaaa");
    assert_eq!(joined(&[long, short, two]), b"aBBcc");
    assert_eq!(joined(&[two, long, short]), b"aBBBa");
    assert_eq!(joined(&[short, two, long]), b"aaaaa");
    assert_eq!(joined(&[long, short, long]), b"aaaaa");
}

#[test]
fn writes_may_share_bytes_of_the_data() {
    let (rows, bytes) = compared_tight(&[write(0, 2, 4), write(10, 0, 6), write(12, 2, 4)], b"abcdef").unwrap();
    assert_eq!(rows, [write(0, 0, 4), write(10, 4, 6)]);
    assert_eq!(bytes, b"cdefabcdef");
}

#[test]
fn rows_ascend_and_are_packed_in_that_order() {
    let (rows, bytes) = compared_tight(&[write(900, 0, 2), write(7, 2, 3), write(50, 5, 1)], b"zzaaam").unwrap();
    assert_eq!(rows, [write(7, 0, 3), write(50, 3, 1), write(900, 4, 2)]);
    assert_eq!(bytes, b"aaamzz");
}

#[test]
fn the_output_is_as_long_as_the_joined_bytes_or_longer() {
    let (writes, data) = ([write(0, 0, 6), write(3, 6, 6), write(20, 0, 4)], bytes_of(12));
    for length in 0..30 {
        assert_eq!(compared(&writes, &data, length).err(), (length < 13).then_some(219), "{length}");
    }
    let mut output = [OLD; 13];
    assert_eq!(join(&writes, &data, &mut output[..12]), Err(Refusal::Output));
    assert_eq!(output, [OLD; 13]);
}

#[test]
fn an_empty_write_is_refused() {
    for (offset, start) in [(0, 0), (5, 3), (5, 12), (u64::MAX, 0), (u64::MAX, 12)] {
        assert_eq!(compared_tight(&[write(offset, start, 0)], &bytes_of(12)), Err(220));
    }
    assert_eq!(compared_tight(&[write(0, 0, 0)], &[]), Err(220));
}

#[test]
fn a_write_that_wraps_is_refused_and_one_that_ends_at_the_last_offset_not() {
    let data = bytes_of(300);
    for length in [1, 2, 9, 255, 256, 300] {
        let last = u64::MAX - length;
        for offset in [last, last - 1] {
            let (rows, _) = compared_tight(&[write(offset, 0, length)], &data).unwrap();
            assert_eq!(rows, [write(offset, 0, length)]);
        }
        for past in 1..=length {
            assert_eq!(
                compared_tight(&[write(last + past, 0, length)], &data),
                Err(220),
                "{length} bytes, past by {past}"
            );
        }
    }
    assert_eq!(ranges(&[(LAST, 1), (LAST - 3, 3), (0, 1)]), [(0, 1), (LAST - 3, 4)]);
    assert_eq!(ranges(&[(LAST - 9, 10), (LAST - 4, 5), (LAST - 20, 3)]), [(LAST - 20, 3), (LAST - 9, 10)]);
}

#[test]
fn a_write_outside_the_data_is_refused() {
    let data = bytes_of(10);
    for (start, length) in [(0, 10), (9, 1), (3, 7)] {
        assert!(compared_tight(&[write(5, start, length)], &data).is_ok());
    }
    let far = [1 << 31, 1 << 32, (1 << 32) + 1, 1 << 63, u64::MAX - 9, u64::MAX - 1, u64::MAX];
    for (start, length) in [(0, 11), (9, 2), (3, 8), (10, 1), (11, 1)].into_iter().chain(far.map(|far| (far, 1))) {
        assert_eq!(compared_tight(&[write(5, start, length)], &data), Err(220), "{start}+{length}");
    }
    // Start and length whose sum wraps, to a place in the data.
    for (near, end) in (1..=10).flat_map(|near| (0..near).map(move |end| (near, end))) {
        let far = u64::MAX - (near - end) + 1;
        for (start, length) in [(near, far), (far, near), (near, u64::MAX), (u64::MAX, near)] {
            assert_eq!(compared(&[write(0, start, length)], &data, 30), Err(220), "{start}+{length}");
        }
    }
    assert_eq!(compared_tight(&[write(0, 0, 1)], &[]), Err(220));
}

#[test]
fn a_sheet_has_at_most_64_writes() {
    let data = bytes_of(130);
    for count in (0..=66).chain([100, 128, 192, 193, 255, 256, 257, 1000, 100_000]) {
        let apart: Vec<SheetWrite> = (0..count).map(|i| write(3 * i, i % 129, 2)).collect();
        let same = vec![write(7, 1, 5); count as usize];
        let touching: Vec<SheetWrite> = (0..count).rev().map(|i| write(2 * i, i % 129, 2)).collect();
        for (writes, rows) in [(apart, count), (same, count.min(1)), (touching, count.min(1))] {
            let outcome = compared(&writes, &data, 1000).map(|sheet| sheet.0.len() as u64);
            assert_eq!(outcome, if count <= 64 { Ok(rows) } else { Err(220) }, "{count}");
        }
    }
}

/// Each of the four reasons, at every place of the list, alone and with an output that is too short.
#[test]
fn one_bad_write_refuses_the_sheet_and_220_comes_first() {
    let data = bytes_of(20);
    let bad = [write(5, 3, 0), write(u64::MAX, 3, 1), write(5, 18, 3), write(u64::MAX - 1, u64::MAX, 2)];
    for count in [1, 2, 3, 63, 64] {
        let good: Vec<SheetWrite> = (0..count).map(|i| write(5 * i, i % 16, 4)).collect();
        assert_eq!(compared(&good, &data, 3), Err(219));
        for at in 0..good.len() {
            for unfit in bad {
                let mut writes = good.clone();
                writes[at] = unfit;
                for output in [0, 3, 300] {
                    assert_eq!(compared(&writes, &data, output), Err(220), "{unfit:?} at {at} of {count}");
                }
            }
        }
    }
    let many = vec![write(0, 0, 4); 65];
    for output in [0, 3, 4, 300] {
        assert_eq!(compared(&many, &data, output), Err(220));
    }
    assert_eq!(Refusal::of(220), Some(Refusal::Sheet));
    assert_eq!(Refusal::of(219), Some(Refusal::Output));
}

/// Every list of up to four writes of one to three bytes in a window of six, at both ends of the offsets.
#[test]
fn every_small_list_is_joined_as_the_plain_rules_say() {
    let data = bytes_of(30);
    let choices: Vec<(u64, u64)> = (0..4).flat_map(|offset| (1..=3).map(move |length| (offset, length))).collect();
    let mut lists = 0;
    for (base, most) in [(0, 4), (LAST - 5, 3)] {
        for count in 0..=most {
            for list in 0..choices.len().pow(count) {
                let chosen = (0..count).map(|i| choices[list / choices.len().pow(i) % choices.len()]);
                let writes: Vec<SheetWrite> =
                    chosen.enumerate().map(|(i, (at, length))| write(base + at, 5 * i as u64, length)).collect();
                assert!(compared(&writes, &data, 6).is_ok());
                lists += 1;
            }
        }
    }
    assert_eq!(lists, 22_621 + 1885);
}

/// A list of writes drawn from a seed, most of which join, with bad ones now and then; where its window starts, and its
/// data.
fn any_sheet(draw: &mut Draw) -> (u64, Vec<SheetWrite>, Vec<u8>) {
    let (window, longest) = [(40, 10), (300, 30), (2000, 60), (100_000, 40)][draw.below(4) as usize];
    let base = match draw.below(4) {
        0 => 0,
        1 => u64::MAX - window,
        2 => (1 << 32) - window / 2,
        _ => draw.any() >> 1,
    };
    let data = bytes_of(1 + draw.below(200) as usize);
    let most = if draw.one_in(30) { 80 } else { [3, 12, 65][draw.below(3) as usize] };
    let writes = (0..draw.below(most)).map(|_| {
        let length = 1 + draw.below(longest.min(data.len() as u64));
        let start = draw.below(data.len() as u64 - length + 1);
        match draw.below(1500) {
            0 => write(base, start, 0),
            1 => write(u64::MAX - draw.below(length), start, length),
            2 => write(base, data.len() as u64 - draw.below(length), length),
            _ => write(base + draw.below(window - longest), start, length),
        }
    });
    (base, writes.collect(), data)
}

#[test]
fn random_sheets_are_joined_as_the_plain_rules_say() {
    let mut draw = Draw::new(14);
    let mut outcomes = BTreeMap::new();
    let mut most_rows = 0;
    for _ in 0..20_000 {
        let (_, writes, data) = any_sheet(&mut draw);
        let lengths: u64 = writes.iter().map(|write| write.length).sum();
        let outcome = if draw.one_in(4) {
            compared(&writes, &data, draw.below(lengths + 2) as usize)
        } else {
            compared_tight(&writes, &data)
        };
        most_rows = outcome.as_ref().map_or(most_rows, |sheet| sheet.0.len().max(most_rows));
        *outcomes.entry(outcome.err()).or_insert(0) += 1;
    }
    assert!(outcomes.len() == 3 && outcomes.values().all(|&count| count > 400), "{outcomes:?}");
    assert!(most_rows > 50, "{most_rows}");
}

#[test]
fn a_joined_sheet_is_a_sheet_and_joins_to_itself() {
    let mut draw = Draw::new(140);
    let mut joins = 0;
    for _ in 0..10_000 {
        let (_, writes, data) = any_sheet(&mut draw);
        let mut output = vec![OLD; writes.iter().map(|write| write.length).sum::<u64>() as usize];
        let Ok(joined) = join(&writes, &data, &mut output) else { continue };
        output.truncate(joined.bytes());
        let mut again = vec![OLD; output.len()];
        assert_eq!(join(joined.writes(), &output, &mut again), Ok(joined));
        assert_eq!(again, output);
        joins += 1;
    }
    assert!(joins > 7000, "{joins}");
}

/// Makes writes in a window of a store that starts at `base`.
fn make(window: &mut [u8], base: u64, writes: &[SheetWrite], data: &[u8]) {
    for write in writes {
        let bytes = &data[write.start as usize..][..write.length as usize];
        window[(write.offset - base) as usize..][..bytes.len()].copy_from_slice(bytes);
    }
}

fn shuffle(draw: &mut Draw, writes: &mut [SheetWrite]) {
    for i in (1..writes.len()).rev() {
        writes.swap(i, draw.below(i as u64 + 1) as usize);
    }
}

#[test]
fn joined_writes_in_any_order_give_what_the_originals_give_in_theirs() {
    let mut draw = Draw::new(1400);
    let mut joins = 0;
    for _ in 0..10_000 {
        let (base, writes, data) = any_sheet(&mut draw);
        let mut output = vec![OLD; writes.iter().map(|write| write.length).sum::<u64>() as usize];
        let Ok(joined) = join(&writes, &data, &mut output) else { continue };
        let old = vec![0xf0; 100_001];
        let mut wanted = old.clone();
        make(&mut wanted, base, &writes, &data);
        for _ in 0..3 {
            let (mut window, mut rows) = (old.clone(), joined.writes().to_vec());
            shuffle(&mut draw, &mut rows);
            make(&mut window, base, &rows, &output);
            assert!(window == wanted, "{writes:?}, joined to {rows:?}");
        }
        joins += 1;
    }
    assert!(joins > 7000, "{joins}");
}

#[test]
fn long_writes_are_joined_too() {
    let mut draw = Draw::new(4096);
    let data: Vec<u8> = (0..64 * 4096).map(|_| draw.below(238) as u8).collect();
    let halves: Vec<SheetWrite> = (0..64).map(|i| write(2048 * i, 4096 * i, 4096)).collect();
    assert_eq!(compared_tight(&halves, &data).unwrap().0, [write(0, 0, 65 * 2048)]);
    let reversed: Vec<SheetWrite> = halves.iter().rev().copied().collect();
    assert_eq!(compared_tight(&reversed, &data).unwrap().0, [write(0, 0, 65 * 2048)]);
    let drawn: Vec<SheetWrite> = (0..64).map(|i| write(draw.below(61_440), 4096 * i, 4096)).collect();
    assert!(compared_tight(&drawn, &data).is_ok());
    let all = [write(1 << 40, 0, 64 * 4096), write((1 << 40) + 7, 100, 1)];
    assert_eq!(compared_tight(&all, &data).unwrap().1.len(), 64 * 4096);
}

/// A store in which these writes were made, one after the other or all at once, and how many requests that took.
fn saved(row: usize, writes: &[SheetWrite], data: &[u8], at_once: bool) -> (Vec<u8>, u64) {
    let settings = Settings::of_row(row, 65_536).unwrap();
    let mut room = Room::new(&settings, 4096);
    let (lent, scratch) = room.parts();
    let mut runner = Runner::open(&settings, lent, scratch).unwrap();
    let store = MemoryStore::new(vec![b'.'; 8192]);
    let mut jobs = JobList::new();
    let numbers: Vec<u64> = writes
        .iter()
        .map(|write| {
            if !at_once {
                jobs.barrier();
            }
            jobs.write(write.offset, &data[write.start as usize..][..write.length as usize])
        })
        .collect();
    let tally = runner.run(&mut jobs, &store);
    assert!(numbers.iter().all(|&number| jobs.ended(number).unwrap().outcome == Ok(Answer::Done)));
    (store.into_bytes(), tally.requests)
}

/// By the runner, on each drive row, up to eight at once.
#[test]
fn a_runner_makes_the_joined_writes_at_once_and_the_store_has_the_same_bytes() {
    let mut draw = Draw::new(40);
    for row in 0..6 {
        for _ in 0..40 {
            let data = bytes_of(100);
            let fields = (0..40).map(|_| {
                let length = 1 + draw.below(30);
                write(draw.below(4000), draw.below(100 - length), length)
            });
            let writes: Vec<SheetWrite> = fields.collect();
            let mut output = [OLD; 40 * 30];
            let joined = join(&writes, &data, &mut output).unwrap();
            let (one_by_one, many) = saved(row, &writes, &data, false);
            let (at_once, few) = saved(row, joined.writes(), &output, true);
            assert!(at_once == one_by_one, "row {row}: {writes:?}");
            assert!(few <= many, "row {row}: {few} requests joined, {many} without");
        }
    }
}

#[test]
fn what_is_printed_has_the_joined_writes_alone() {
    let joined = join(&[write(5, 0, 2)], b"ab", &mut [0; 2]).unwrap();
    let text = "Joined { writes: [SheetWrite { offset: 5, start: 0, length: 2 }], bytes: 2 }";
    assert_eq!(format!("{joined:?}"), text);
}
