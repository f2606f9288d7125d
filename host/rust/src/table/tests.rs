use super::*;
use crate::dock::Dock;
use crate::draw::Draw;
use crate::{Answer, JobList, MemoryStore, Room, Runner};

const FLEET: [[u64; 4]; 4] =
    [[1, 4096, 4096, 4096], [512, 512, 512, 65536], [65536, 65536, 1, 1], [1, 2048, 32768, 16384]];

/// A record of any kind, whose length is that of what follows it.
fn record_of(kind: u16, body: &[u8]) -> Vec<u8> {
    let length = u16::try_from(2 + body.len()).unwrap();
    [&length.to_le_bytes()[..], &kind.to_le_bytes(), body].concat()
}

fn row_of(row: [u64; 4]) -> Vec<u8> {
    record_of(1, &row.map(|align| (align as u32).to_le_bytes()).concat())
}

/// A table with records of other kinds before, between and after its rows.
fn mixed_table() -> Vec<u8> {
    let mut bytes = record_of(0, b"");
    for (i, row) in FLEET.into_iter().enumerate() {
        bytes.extend(row_of(row));
        bytes.extend(record_of(2 + 300 * i as u16, &vec![i as u8; 7 * i]));
    }
    bytes
}

/// The request's sentences, one after the other, by numbers alone: the rows, or the number of the refusal.
fn plain(bytes: &[u8]) -> Result<Vec<[u64; 4]>, u8> {
    let number = |at: usize, count: usize| (0..count).rev().fold(0, |sum, i| 256 * sum + u64::from(bytes[at + i]));
    let mut rows = Vec::new();
    let mut at = 0;
    while at < bytes.len() {
        let left = bytes.len() - at;
        if left < 2 || number(at, 2) > left as u64 - 2 || number(at, 2) < 2 {
            return Err(211);
        }
        let length = number(at, 2) as usize;
        if number(at + 2, 2) == 1 {
            if length != 18 || rows.len() == 64 {
                return Err(211);
            }
            let row = [4, 8, 12, 16].map(|from| number(at + from, 4));
            if row.iter().any(|align| !(0..=16).any(|bit| 1 << bit == *align)) {
                return Err(212);
            }
            rows.push(row);
        }
        at += 2 + length;
    }
    if rows.is_empty() {
        return Err(211);
    }
    Ok(rows)
}

/// Loads by the library and by the plain rules: the same rows or the same refusal. What is refused leaves the words as
/// they were; what is loaded leaves none of the old ones.
fn compared(bytes: &[u8]) -> Result<Vec<[u64; 4]>, u8> {
    let wanted = plain(bytes);
    let loaded = Table::load(bytes);
    assert_eq!(loaded.as_ref().map(|table| table.rows().collect()).map_err(|refusal| refusal.number()), wanted);
    let mut words = [u64::MAX; raw::TABLE_WORDS];
    let number = raw::load_table(&mut words, bytes);
    match &loaded {
        Ok(table) => assert!(number == 0 && words == *table.words()),
        Err(refusal) => assert!(number == refusal.number() && words == [u64::MAX; raw::TABLE_WORDS]),
    }
    wanted
}

#[test]
fn rows_are_numbered_in_the_order_of_the_file() {
    let table = Table::load(&mixed_table()).unwrap();
    assert_eq!(compared(&mixed_table()), Ok(FLEET.to_vec()));
    assert_eq!((table.len(), table.is_empty()), (4, false));
    for (i, row) in FLEET.into_iter().enumerate() {
        assert_eq!(table.row(i), Ok(row));
    }
    assert_eq!(table, Table::of_rows(&FLEET).unwrap());
    assert_eq!(format!("{:?}", Table::of_rows(&FLEET[..1]).unwrap()), "Table [[1, 4096, 4096, 4096]]");
}

#[test]
fn words_are_the_count_the_rows_and_zeroes() {
    let table = Table::of_rows(&FLEET).unwrap();
    let wanted = [vec![4], FLEET.concat(), vec![0; 240]].concat();
    assert_eq!(table.words()[..], wanted);
}

#[test]
fn bytes_are_the_house_form_and_load_again() {
    let table = Table::load(&mixed_table()).unwrap();
    assert_eq!(table.bytes(), FLEET.map(row_of).concat());
    assert_eq!(Table::load(&table.bytes()), Ok(table));
    let one = [18, 0, 1, 0, 1, 0, 0, 0, 0, 2, 0, 0, 0, 16, 0, 0, 0, 0, 1, 0];
    assert_eq!(Table::of_rows(&[[1, 512, 4096, 65536]]).unwrap().bytes(), one);
}

#[test]
fn a_cut_is_refused_wherever_it_is_and_elsewhere_not() {
    let bytes = mixed_table();
    let mut loaded = 0;
    for end in 0..bytes.len() {
        loaded += usize::from(compared(&bytes[..end]).is_ok());
        assert_ne!(compared(&bytes[..end]), Err(212), "{end}");
    }
    // Before each record after the first row, and nowhere else.
    assert_eq!(loaded, 7);
    for start in 1..bytes.len() {
        let _ = compared(&bytes[start..]);
    }
}

#[test]
fn a_length_that_is_off_is_refused_or_changes_what_follows() {
    for bytes in [mixed_table(), FLEET.map(row_of).concat(), row_of(FLEET[0])] {
        let mut at = 0;
        while at < bytes.len() {
            let length = u16::from_le_bytes([bytes[at], bytes[at + 1]]);
            let is_row = bytes[at + 2..at + 4] == [1, 0];
            for wrong in (0..=64).chain([length - 1, length + 1, length << 8, 0x7fff, 0xffff]) {
                let mut other = bytes.clone();
                other[at..at + 2].copy_from_slice(&wrong.to_le_bytes());
                let outcome = compared(&other);
                if is_row && wrong != length {
                    assert_eq!(outcome, Err(211), "a row at {at} of length {wrong}");
                }
            }
            at += 2 + usize::from(length);
        }
    }
}

#[test]
fn a_table_has_1_to_64_rows() {
    for count in 0..=66 {
        let rows: Vec<[u64; 4]> = (0..count).map(|i| [1 << (i % 17), 1, 512, 65536]).collect();
        let wanted = if (1..=64).contains(&count) { Ok(rows.clone()) } else { Err(211) };
        assert_eq!(compared(&rows.iter().copied().flat_map(row_of).collect::<Vec<u8>>()), wanted, "{count}");
        let table = Table::of_rows(&rows);
        assert_eq!(table.map(|table| table.rows().collect()).map_err(Refusal::number), wanted, "{count}");
    }
    assert_eq!(compared(&[record_of(2, b"row"), record_of(0, b"")].concat()), Err(211));
    assert_eq!(Table::of_rows(&vec![[1; 4]; 1_000_000]), Err(Refusal::Table));
}

#[test]
fn an_alignment_is_a_power_of_two_up_to_65536() {
    let fit: Vec<u64> = (0..17).map(|bit| 1 << bit).collect();
    let unfit =
        [0, 3, 5, 511, 513, 65535, 65537, 98304, 131_072, 1 << 24, (1 << 24) + 512, (1 << 31) + 1, (1 << 32) - 1];
    for (place, before) in [(0, 0), (1, 1), (2, 2), (3, 63)] {
        let table = |align: u64| {
            let mut row = [512; 4];
            row[place] = align;
            [vec![[1; 4]; before], vec![row]].concat()
        };
        for align in &fit {
            assert_eq!(compared(&table(*align).into_iter().flat_map(row_of).collect::<Vec<u8>>()), Ok(table(*align)));
        }
        for align in &unfit {
            assert_eq!(compared(&table(*align).into_iter().flat_map(row_of).collect::<Vec<u8>>()), Err(212));
            assert_eq!(Table::of_rows(&table(*align)), Err(Refusal::Row), "{align}");
        }
        // What four bytes do not hold, above all numbers whose lowest four would be an alignment.
        for align in [1 << 32, (1 << 32) + 1, (7 << 32) + 512, 1 << 63, u64::MAX] {
            assert_eq!(Table::of_rows(&table(align)), Err(Refusal::Row), "{align}");
        }
    }
}

#[test]
fn records_of_other_kinds_are_passed_over_by_their_length() {
    for kind in [0, 2, 17, 18, 255, 256, 257, 0x0101, 0x8001, 0xffff] {
        for length in [0, 1, 2, 15, 16, 17, 18, 254, 255, 256, 65_533] {
            let other = record_of(kind, &vec![1; length]);
            for bytes in [[other.clone(), row_of(FLEET[1])].concat(), [row_of(FLEET[1]), other].concat()] {
                assert_eq!(compared(&bytes), Ok(vec![FLEET[1]]), "kind {kind}, {length} bytes");
            }
        }
    }
}

#[test]
fn a_record_shorter_than_its_kind_is_refused() {
    let row = row_of(FLEET[0]);
    for end in [&[0][..], &[0, 0], &[0; 4], &[0; 20], &[1, 0], &[1, 0, 1], &[1, 0, 1, 0], &[2, 0], &[2, 0, 1]] {
        assert_eq!(compared(end), Err(211));
        assert_eq!(compared(&[&row[..], end].concat()), Err(211), "{end:?}");
        assert_eq!(compared(&[end, &row[..]].concat()), Err(211), "{end:?}");
    }
}

#[test]
fn numbers_of_the_other_end_are_refused() {
    let big = |row: [u64; 4]| [&[0, 18, 0, 1][..], &row.map(|align| (align as u32).to_be_bytes()).concat()].concat();
    for row in FLEET {
        assert_eq!(compared(&big(row)), Err(211));
        let body = row.map(|align| (align as u32).to_be_bytes()).concat();
        assert_eq!(compared(&record_of(1, &body)), Err(212));
    }
    assert_eq!(compared(&FLEET.map(big).concat()), Err(211));
}

#[test]
fn the_first_bad_record_decides_and_211_before_212_in_it() {
    let (good, unfit, cut) = (row_of(FLEET[0]), row_of([3; 4]), vec![18, 0, 1]);
    let short = record_of(1, &[0; 15]);
    let many = vec![good.clone(); 64].concat();
    for (records, number) in [
        (vec![&good, &unfit, &cut], 212),
        (vec![&good, &cut, &unfit], 211),
        (vec![&unfit, &short], 212),
        (vec![&short, &unfit], 211),
        (vec![&many, &unfit], 211),
        (vec![&unfit, &many], 212),
        (vec![&many, &cut], 211),
    ] {
        assert_eq!(compared(&records.into_iter().flatten().copied().collect::<Vec<u8>>()), Err(number));
    }
    let unfit_at = |at: usize| (0..70).map(|i| [if i == at { 0 } else { 1 }; 4]).collect::<Vec<_>>();
    assert_eq!(Table::of_rows(&unfit_at(63)), Err(Refusal::Row));
    assert_eq!(Table::of_rows(&unfit_at(64)), Err(Refusal::Table));
    assert_eq!(Table::of_rows(&[]), Err(Refusal::Table));
}

/// Tables with a few bytes changed, and records put together at random.
#[test]
fn random_bytes_load_as_the_plain_rules_say() {
    let mut draw = Draw::new(12);
    let mut outcomes = [0; 3];
    for _ in 0..60_000 {
        let mut bytes = Vec::new();
        let most = if draw.one_in(20) { 80 } else { 6 };
        for _ in 0..draw.below(most) {
            let mut align = || if draw.one_in(60) { draw.any() } else { 1 << draw.below(17) };
            let row = [align(), align(), align(), align()];
            let length = if draw.one_in(2) { draw.below(40) } else { 16 } as usize;
            let other = if draw.one_in(8) { record_of(1, &vec![0; length]) } else { record_of(3, &vec![9; length]) };
            bytes.extend(if draw.one_in(5) { other } else { row_of(row) });
        }
        for _ in 0..draw.below(3) * draw.below(2) {
            let at = draw.below(bytes.len() as u64 + 1) as usize;
            match bytes.get_mut(at) {
                Some(byte) => *byte = draw.below(20) as u8,
                None => bytes.push(draw.below(20) as u8),
            }
        }
        outcomes[compared(&bytes).map_or_else(|number| usize::from(number) - 210, |_| 0)] += 1;
    }
    assert!(outcomes.iter().all(|&count| count > 3000), "{outcomes:?}");
}

#[test]
fn a_row_past_the_last_is_unfit() {
    let mut scratch = vec![0; 8 * 65536];
    for count in [1, 2, 63, 64] {
        let table = Table::of_rows(&vec![[1; 4]; count]).unwrap();
        for row in [count, count + 1, 64, 65, 256, 1 << 32, usize::MAX / 4 + 1, usize::MAX] {
            assert_eq!(table.row(row), Err(Refusal::Unfit));
            assert_eq!(table.settings(row, 65536), Err(Refusal::Unfit));
            let refusal = Dock::open_table(&table, row, 65536, &mut [0; 9], &mut scratch).err();
            assert_eq!(refusal, Some(Refusal::Unfit));
        }
    }
}

#[test]
fn a_runner_edits_by_a_row_and_changes_its_bytes_alone() {
    let table = Table::load(&mixed_table()).unwrap();
    for row in 0..table.len() {
        let settings = table.settings(row, 262_144).unwrap();
        let mut room = Room::new(&settings, 100);
        let (data, scratch) = room.parts();
        let mut runner = Runner::open(&settings, data, scratch).unwrap();
        let store = MemoryStore::new(vec![b'.'; 2 * 65536]);
        let mut jobs = JobList::new();
        let edit = jobs.write(65530, b"+002.75deg");
        let tally = runner.run(&mut jobs, &store);
        assert_eq!(jobs.ended(edit).unwrap().outcome, Ok(Answer::Done));
        assert_eq!(tally.written % settings.req, 0);
        assert_ne!(tally.written, 0);
        let mut wanted = vec![b'.'; 2 * 65536];
        wanted[65530..65540].copy_from_slice(b"+002.75deg");
        assert!(store.bytes()[..] == wanted, "{settings:?}");
    }
}
