use super::*;
use crate::answer::{Kind, Request};
use crate::draw::Draw;

const BOUNCE: u64 = 4096;
const LAST_BLOCK: u64 = u64::MAX - 511;

/// Calls `test` with a dock of drive row 1 over 8192 bytes of data, each its offset modulo 251.
fn with_dock(test: impl FnOnce(&mut Dock<'_>)) {
    let mut data: Vec<u8> = (0..8192u32).map(|i| (i % 251) as u8).collect();
    let mut scratch = vec![0x5a; 8 * BOUNCE as usize];
    test(&mut Dock::open_row(1, BOUNCE, &mut data, &mut scratch).unwrap());
}

/// Carries out the request that is out over the store, and tells 0.
fn carry(dock: &mut Dock<'_>, slot: usize, store: &mut [u8]) {
    let Ok(Due::Make(request)) = dock.next(slot) else { panic!("no request is out") };
    let mut at = request.offset as usize;
    for i in 0..request.pieces {
        let n = match dock.piece(slot, i).unwrap() {
            Piece::Fill(bytes) => {
                bytes.copy_from_slice(&store[at..at + bytes.len()]);
                bytes.len()
            }
            Piece::Take(bytes) => {
                store[at..at + bytes.len()].copy_from_slice(bytes);
                bytes.len()
            }
        };
        at += n;
    }
    if request.pieces == 0 {
        store[at..at + request.length as usize].fill(0);
    } else {
        assert_eq!(at as u64, request.offset + request.length);
    }
    dock.tell(slot, 0).unwrap();
}

fn due(kind: Kind, offset: u64, length: u64) -> Due {
    let pieces = usize::from(matches!(kind, Kind::Read | Kind::Write));
    Due::Make(Request { kind, offset, length, pieces })
}

/// The job's requests, told 0 until it ends, and its answer.
fn run(dock: &mut Dock<'_>, slot: usize, store: &mut [u8]) -> (Vec<Due>, Answer) {
    let mut requests = Vec::new();
    while let Ok(request @ Due::Make(_)) = dock.next(slot) {
        requests.push(request);
        carry(dock, slot, store);
    }
    (requests, dock.collect(slot).unwrap())
}

/// A call is refused, and neither words nor bytes have changed.
fn refused<T: fmt::Debug>(dock: &mut Dock<'_>, why: Refusal, call: impl FnOnce(&mut Dock<'_>) -> Result<T, Refusal>) {
    let before = dock.words.copied();
    assert_eq!(call(dock).unwrap_err(), why);
    assert!(before == dock.words.copied());
}

#[test]
fn a_small_write_reads_twice_and_changes_its_bytes_alone() {
    with_dock(|dock| {
        let mut store = vec![0x11; 1024];
        assert_eq!(dock.begin_write(100, &Vector::of(5, 10)), Ok(Begun::Slot(0)));
        let (requests, answer) = run(dock, 0, &mut store);
        assert_eq!(requests, [due(Kind::Read, 0, 512), due(Kind::Read, 0, 512), due(Kind::Write, 0, 512)]);
        assert_eq!(answer, Answer::Done);
        assert_eq!(store[100..110], dock.data()[5..15]);
        assert!(store[..100].iter().chain(&store[110..]).all(|&b| b == 0x11));
    });
}

#[test]
fn the_second_of_two_edits_waits_and_undoes_nothing() {
    with_dock(|dock| {
        let mut store = vec![0xee; 512];
        dock.begin_write(100, &Vector::of(0, 10)).unwrap();
        dock.begin_write(300, &Vector::of(10, 10)).unwrap();
        assert_eq!(dock.next(1), Ok(Due::Waiting));
        refused(dock, Refusal::Slot, |d| d.tell(1, 0));
        assert_eq!(run(dock, 0, &mut store).1, Answer::Done);
        assert_eq!(run(dock, 1, &mut store).1, Answer::Done);
        assert_eq!(store[100..110], dock.data()[..10]);
        assert_eq!(store[300..310], dock.data()[10..20]);
        assert_eq!(store.iter().filter(|&&b| b == 0xee).count(), 492);
    });
}

#[test]
fn a_direct_read_fills_its_segments_in_order() {
    with_dock(|dock| {
        let mut store: Vec<u8> = (0..2048u32).map(|i| (i % 199) as u8).collect();
        let mut vector = Vector::of(4096, 512);
        vector.push(0, 512);
        dock.begin_read(512, &vector).unwrap();
        let request = Request { kind: Kind::Read, offset: 512, length: 1024, pieces: 2 };
        assert_eq!(run(dock, 0, &mut store), (vec![Due::Make(request)], Answer::Done));
        assert_eq!(dock.data()[4096..4608], store[512..1024]);
        assert_eq!(dock.data()[..512], store[1024..1536]);
    });
}

/// Neither half is a block of 512, and with a byte between them the write would go through the bounce buffer.
#[test]
fn segments_that_touch_are_one_piece() {
    with_dock(|dock| {
        for (second, direct) in [(356, true), (357, false)] {
            let mut vector = Vector::of(100, 256);
            vector.push(second, 256);
            dock.begin_write(512, &vector).unwrap();
            assert_eq!(dock.next(0), Ok(due(Kind::Write, 512, 512)));
            let address = dock.data()[100..].as_ptr();
            assert_eq!(dock.piece(0, 0).unwrap().bytes().as_ptr() == address, direct, "{second}");
            dock.tell(0, 0).unwrap();
            assert_eq!(dock.collect(0), Ok(Answer::Done));
        }
    });
}

#[test]
fn a_padded_read_gives_the_asked_bytes_at_its_tell() {
    with_dock(|dock| {
        let mut store: Vec<u8> = (0..1024u32).map(|i| (i % 199) as u8).collect();
        dock.begin_read(10, &Vector::of(3, 600)).unwrap();
        assert_eq!(run(dock, 0, &mut store), (vec![due(Kind::Read, 0, 1024)], Answer::Done));
        assert_eq!(dock.data()[3..603], store[10..610]);
        assert_eq!((dock.data()[2], dock.data()[603]), (2, (603 % 251) as u8));
    });
}

#[test]
fn a_write_of_zeroes_falls_back_to_chunks() {
    with_dock(|dock| {
        let mut store = vec![0x11; 2048];
        dock.begin_zeroes(true, 100, 1000).unwrap();
        assert_eq!(dock.next(0), Ok(due(Kind::AllocatedZero, 512, 512)));
        refused(dock, Refusal::Slot, |d| d.piece(0, 0).map(|_| ()));
        dock.tell(0, 1).unwrap();
        let (requests, answer) = run(dock, 0, &mut store);
        let head = [due(Kind::Read, 0, 512), due(Kind::Write, 0, 512)];
        let rest = [due(Kind::Read, 1024, 512), due(Kind::Write, 512, 1024)];
        assert_eq!(requests, [head, rest].concat());
        assert_eq!(answer, Answer::Done);
        assert!(store.iter().enumerate().all(|(i, &b)| b == if (100..1100).contains(&i) { 0 } else { 0x11 }));
    });
}

#[test]
fn zeroes_and_discards_make_requests_of_their_kinds() {
    with_dock(|dock| {
        assert_eq!(dock.begin_zeroes(false, 0, 512), Ok(Begun::Slot(0)));
        assert_eq!(dock.next(0), Ok(due(Kind::Zero, 0, 512)));
        assert_eq!(dock.begin_discard(512, 1024), Ok(Begun::Slot(1)));
        assert_eq!(dock.next(1), Ok(due(Kind::Discard, 512, 1024)));
        assert_eq!(dock.begin_discard(100, 400), Ok(Begun::Done));
        dock.tell(1, 1).unwrap();
        assert_eq!(dock.next(1), Ok(Due::Answer(Answer::Done)));
    });
}

#[test]
fn a_job_ends_with_the_store_s_code() {
    with_dock(|dock| {
        for code in 1..=199 {
            dock.begin_write(100, &Vector::of(0, 10)).unwrap();
            dock.tell(0, code).unwrap();
            assert_eq!(dock.collect(0).unwrap().number(), code);
        }
        dock.begin_zeroes(false, LAST_BLOCK - 512, 1023).unwrap();
        dock.tell(0, 0).unwrap();
        assert_eq!(dock.collect(0), Ok(Answer::Overflow));
    });
}

#[test]
fn a_piece_of_a_write_is_only_lent_to_be_looked_at() {
    with_dock(|dock| {
        dock.begin_write(512, &Vector::of(7, 512)).unwrap();
        let bytes: Vec<u8> = dock.data()[7..519].to_vec();
        assert_eq!(dock.piece(0, 0), Ok(Piece::Take(&bytes)));
        dock.begin_read(0, &Vector::of(4096, 512)).unwrap();
        assert!(matches!(dock.piece(1, 0), Ok(Piece::Fill(part)) if part.len() == 512));
    });
}

#[test]
fn opening_refuses_what_is_unfit() {
    let (mut data, mut scratch) = ([0; 16], [0; 64]);
    let fits = Settings { mem: 1, req: 1, zero: 1, discard: 1, bounce: 8 };
    assert!(Dock::open(&fits, &mut data, &mut scratch).is_ok());
    let open = |s: Settings, scratch: &mut [u8]| Dock::open(&s, &mut [0; 16], scratch).err();
    assert_eq!(open(Settings { zero: 3, ..fits }, &mut scratch), Some(Refusal::Unfit));
    assert_eq!(open(Settings { bounce: 3, ..fits }, &mut scratch), Some(Refusal::Unfit));
    assert_eq!(open(Settings { bounce: 9, ..fits }, &mut scratch), Some(Refusal::Buffer));
    assert_eq!(open(fits, &mut []), Some(Refusal::Buffer));
    assert_eq!(Dock::open_row(6, 4096, &mut data, &mut scratch).err(), Some(Refusal::Unfit));
    assert!(Dock::open(&fits, &mut [], &mut scratch).is_ok());
}

#[test]
fn the_settings_of_a_row_are_the_library_s() {
    let (mut room, mut data) = (vec![0; 8 * 65_536 + 4096], [0; 16]);
    let scratch = aligned_part(&mut room, 4096);
    for row in 0..Settings::ROWS.len() {
        let by_row = Dock::open_row(row, 65_536, &mut data, scratch).unwrap().words.copied();
        let settings = Settings::of_row(row, 65_536).unwrap();
        assert!(by_row == Dock::open(&settings, &mut data, scratch).unwrap().words.copied(), "{row}");
    }
    assert_eq!(Settings::of_row(6, 65_536), None);
    assert_eq!(Dock::open_row(6, 65_536, &mut data, scratch).err(), Some(Refusal::Unfit));
}

/// The words of the dock, or its refusal.
type Opened = Result<(Vec<u64>, Vec<u8>), Refusal>;

fn words_of(opened: Result<Dock<'_>, Refusal>) -> Opened {
    opened.map(|dock| {
        let (words, bytes, ..) = dock.words.copied();
        (words, bytes)
    })
}

#[test]
fn a_dock_opens_by_a_row_of_a_table_as_by_its_alignments() {
    let mut draw = Draw::new(3);
    let (mut data, mut room) = (vec![1; 100], vec![2; 8 * 1_048_576 + 65536]);
    let mut outcomes = [0; 3];
    for _ in 0..40 {
        let rows: Vec<[u64; 4]> = (0..1 + draw.below(64)).map(|_| [(); 4].map(|()| 1 << draw.below(17))).collect();
        let table = Table::of_rows(&rows).unwrap();
        for (i, &[mem, req, zero, discard]) in rows.iter().enumerate() {
            let unit = mem.max(req);
            let least = (2 * zero).next_multiple_of(unit) + 2 * unit;
            let bounce = [least, least + unit, least - 1, 65536, 1_048_576, 0, u64::MAX][draw.below(7) as usize];
            let past = if draw.one_in(5) { 1 } else { 0 };
            let scratch = &mut aligned_part(&mut room, 65536)[past..];
            let scratch = match draw.one_in(2) {
                true => &mut scratch[..(8 * bounce.min(4096)) as usize],
                false => scratch,
            };
            let settings = table.settings(i, bounce).unwrap();
            assert_eq!(settings, Settings { mem, req, zero, discard, bounce });
            let wanted = words_of(Dock::open(&settings, &mut data, scratch));
            assert!(words_of(Dock::open_table(&table, i, bounce, &mut data, scratch)) == wanted, "{settings:?}");
            outcomes[match wanted {
                Ok(_) => 0,
                Err(Refusal::Unfit) => 1,
                Err(Refusal::Buffer) => 2,
                Err(other) => panic!("{other}"),
            }] += 1;
        }
    }
    assert!(outcomes.iter().all(|&count| count > 100), "{outcomes:?}");
}

#[test]
fn a_table_of_the_built_in_rows_opens_as_they_do() {
    let table = Table::of_rows(&Settings::ROWS).unwrap();
    let (mut data, mut room) = (vec![0; 100], vec![0; 9 * 65536]);
    let scratch = aligned_part(&mut room, 4096);
    for row in 0..7 {
        let wanted = words_of(Dock::open_row(row, 65536, &mut data, scratch));
        assert!(words_of(Dock::open_table(&table, row, 65536, &mut data, scratch)) == wanted, "{row}");
    }
}

#[test]
fn scratch_must_start_at_a_multiple_of_the_memory_alignment() {
    let mut room = vec![0; 8 * 12288 + 2 * 4096];
    let scratch = aligned_part(&mut room, 4096);
    assert_eq!(scratch.as_ptr() as usize % 4096, 0);
    assert!(Dock::open_row(4, 12288, &mut [0; 10], scratch).is_ok());
    assert_eq!(Dock::open_row(4, 12288, &mut [0; 10], &mut scratch[1..]).err(), Some(Refusal::Buffer));
    assert!(aligned_part(&mut scratch[1..100], 4096).is_empty());
}

/// The same length of data goes straight to the store or through the bounce buffer, by the address of its first byte.
#[test]
fn the_address_of_the_data_decides_on_direct_requests() {
    let (mut room, mut more) = (vec![0; 4 * 4096], vec![0; 8 * 12288 + 4096]);
    let data = &mut aligned_part(&mut room, 4096)[1..];
    let mut dock = Dock::open_row(4, 12288, data, aligned_part(&mut more, 4096)).unwrap();
    for (start, direct) in [(4095, true), (0, false), (8191, true), (4096, false)] {
        dock.begin_write(512, &Vector::of(start, 4096)).unwrap();
        assert_eq!(dock.next(0), Ok(due(Kind::Write, 512, 4096)));
        let address = dock.data()[start..].as_ptr();
        assert_eq!(dock.piece(0, 0).unwrap().bytes().as_ptr() == address, direct, "{start}");
        dock.tell(0, 0).unwrap();
        assert_eq!(dock.collect(0), Ok(Answer::Done));
    }
}

#[test]
fn begins_are_refused_with_their_numbers() {
    with_dock(|dock| {
        refused(dock, Refusal::Segment, |d| d.begin_write(0, &Vector::of(8192, 1)));
        refused(dock, Refusal::TooLong, |d| d.begin_read(0, &Vector::of(0, 4097)));
        refused(dock, Refusal::Overflow, |d| d.begin_read(LAST_BLOCK, &Vector::of(0, 512)));
        dock.begin_read(0, &Vector::of(0, 10)).unwrap();
        refused(dock, Refusal::Overlap, |d| d.begin_write(0, &Vector::of(9, 1)));
        refused(dock, Refusal::Overlap, |d| d.begin_read(0, &Vector::of(9, 1)));
        for slot in 1..SLOTS {
            assert_eq!(dock.begin_write(0, &Vector::of(100, 10)), Ok(Begun::Slot(slot)));
        }
        refused(dock, Refusal::Full, |d| d.begin_discard(0, 512));
    });
}

#[test]
fn other_calls_are_refused_with_their_numbers() {
    with_dock(|dock| {
        dock.begin_write(100, &Vector::of(0, 10)).unwrap();
        for slot in [1, 7, 8, usize::MAX] {
            refused(dock, Refusal::Slot, |d| d.next(slot));
            refused(dock, Refusal::Slot, |d| d.piece(slot, 0).map(|_| ()));
            refused(dock, Refusal::Slot, |d| d.tell(slot, 0));
            refused(dock, Refusal::Slot, |d| d.collect(slot));
        }
        refused(dock, Refusal::Slot, |d| d.collect(0));
        for code in 200..=255 {
            refused(dock, Refusal::NoAnswer, |d| d.tell(0, code));
        }
        dock.tell(0, 2).unwrap();
        refused(dock, Refusal::Slot, |d| d.tell(0, 0));
        refused(dock, Refusal::Slot, |d| d.collect(8));
        refused(dock, Refusal::Unaligned, |d| d.chunks(1, 512));
        refused(dock, Refusal::Overflow, |d| d.chunk(LAST_BLOCK, 512, 0));
    });
}

#[test]
fn the_planner_counts_chunks_of_the_bounce_buffer() {
    with_dock(|dock| {
        assert_eq!(dock.chunks(512, 10240), Ok(3));
        assert_eq!(dock.chunk(512, 10240, 2), Ok(Chunk { offset: 8704, length: 2048 }));
        assert_eq!(dock.chunk(512, 10240, 3), Ok(Chunk { offset: 10752, length: 0 }));
    });
}

#[test]
fn bytes_of_a_job_in_flight_do_not_change_until_collect() {
    with_dock(|dock| {
        dock.begin_write(100, &Vector::of(50, 10)).unwrap();
        dock.begin_read(4096, &Vector::of(200, 10)).unwrap();
        let before = dock.data().to_vec();
        for at in [41, 50, 59, 191, 209] {
            assert_eq!(dock.write_data(at, &[0xff; 10]), Err(DataError::InFlight), "{at}");
        }
        assert_eq!(dock.write_data(8192, &[1]), Err(DataError::Outside));
        assert_eq!(dock.write_data(usize::MAX, &[1]), Err(DataError::Outside));
        assert_eq!(dock.data(), before);
        for at in [40, 60, 190, 210] {
            assert_eq!(dock.write_data(at, &[0xff; 10]), Ok(()), "{at}");
            assert_eq!(dock.data()[at..at + 10], [0xff; 10]);
        }
        dock.tell(0, 5).unwrap();
        assert_eq!(dock.write_data(50, &[1]), Err(DataError::InFlight));
        assert_eq!(dock.collect(0), Ok(Answer::Failed(5)));
        assert_eq!(dock.write_data(50, &[1]), Ok(()));
        assert_eq!(dock.data_mut(200..201), Err(DataError::InFlight));
    });
}

#[test]
fn a_refused_begin_takes_no_bytes() {
    with_dock(|dock| {
        assert_eq!(dock.begin_read(LAST_BLOCK, &Vector::of(0, 512)), Err(Refusal::Overflow));
        assert_eq!(dock.write_data(0, &[1; 512]), Ok(()));
    });
}

#[test]
fn the_buffers_come_back() {
    let (mut data, mut scratch) = ([7; 16], [0; 64]);
    let dock = Dock::open_row(0, 8, &mut data, &mut scratch).unwrap();
    let (data, scratch) = dock.into_buffers();
    assert_eq!((&*data, scratch.len()), (&[7; 16][..], 64));
}

#[test]
fn a_dock_can_move_to_another_thread() {
    fn sends<T: Send>(_: &T) {}
    with_dock(|dock| sends(dock));
}
