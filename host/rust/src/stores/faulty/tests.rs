use super::*;
use std::sync::Arc;
use std::time::Instant;

fn faults(failing: u64, unsupported: u64) -> Faults {
    Faults { seed: 3, failing, unsupported, ..Faults::default() }
}

fn bytes_of(store: &FaultyStore) -> Vec<u8> {
    store.look(<[u8]>::to_vec)
}

fn write(store: &FaultyStore, offset: u64, bytes: &[u8]) -> Code {
    let (a, b) = bytes.split_at(bytes.len() / 3);
    store.write(offset, &[IoSlice::new(a), IoSlice::new(b)])
}

#[test]
fn without_faults_it_is_a_store_in_memory() {
    let store = FaultyStore::new(vec![1; 100], faults(0, 0));
    assert_eq!(write(&store, 90, &[2; 20]), Code::DONE);
    assert_eq!((store.zero(0, 10), store.allocated_zero(20, 10)), (Code::DONE, Code::DONE));
    let mut read = [9; 8];
    assert_eq!(store.read(106, &mut [IoSliceMut::new(&mut read)]), Code::DONE);
    assert_eq!(read, [2, 2, 2, 2, 0, 0, 0, 0]);
    let wanted = [vec![0; 10], vec![1; 10], vec![0; 10], vec![1; 60], vec![2; 20]].concat();
    assert_eq!(bytes_of(&store), wanted);
    assert_eq!(store.discard(0, 50), Code::DONE);
    assert_ne!(bytes_of(&store)[..50], wanted[..50]);
    assert_eq!(bytes_of(&store)[50..], wanted[50..]);
}

#[test]
fn of_a_failed_write_each_byte_is_old_or_new_and_no_other_byte_changes() {
    let store = FaultyStore::new(vec![1; 1000], faults(1, 0));
    assert!((2..=199).contains(&write(&store, 100, &[2; 800]).number()));
    let bytes = bytes_of(&store);
    assert_eq!((&bytes[..100], &bytes[900..]), (&[1; 100][..], &[1; 100][..]));
    let new = bytes.iter().filter(|&&byte| byte == 2).count();
    assert!((200..600).contains(&new) && bytes.iter().all(|&byte| byte == 1 || byte == 2), "{new}");
    assert!((2..=199).contains(&store.zero(0, 50).number()));
    let bytes = bytes_of(&store);
    assert!(bytes[..50].contains(&0) && bytes[..50].contains(&1) && bytes[50..100] == [1; 50]);
}

#[test]
fn a_failed_read_leaves_junk() {
    let store = FaultyStore::new(vec![1; 100], faults(1, 0));
    let mut read = [1; 100];
    assert_ne!(store.read(0, &mut [IoSliceMut::new(&mut read)]), Code::DONE);
    assert_ne!(read, [1; 100]);
    assert_eq!(bytes_of(&store), [1; 100]);
}

#[test]
fn only_zeroes_and_discards_are_unsupported() {
    let store = FaultyStore::new(vec![1; 100], faults(0, 1));
    assert_eq!((store.zero(0, 10), store.allocated_zero(0, 10)), (Code::UNSUPPORTED, Code::UNSUPPORTED));
    assert_eq!((store.discard(0, 10), write(&store, 0, &[1; 9])), (Code::UNSUPPORTED, Code::DONE));
}

#[test]
fn a_seed_says_it_all() {
    let run = |seed| {
        let store = FaultyStore::new(vec![1; 1000], Faults { seed, failing: 2, unsupported: 2, ..Faults::default() });
        let codes: Vec<Code> = (0..40).map(|i| write(&store, 20 * i, &[2; 30])).collect();
        (codes, store.zero(0, 500), store.discard(500, 500), bytes_of(&store))
    };
    assert_eq!(run(1), run(1));
    assert_ne!(run(1), run(2));
}

#[test]
fn a_watcher_sees_each_request_and_the_bytes_after_it() {
    let seen = Arc::new(Mutex::new(Vec::new()));
    let notes = Arc::clone(&seen);
    let watcher = move |carried: &Carried, bytes: &[u8]| notes.lock().unwrap().push((*carried, bytes.to_vec()));
    let store = FaultyStore::watched(vec![1; 4], faults(0, 0), Box::new(watcher));
    let two = [2, 2];
    store.write(1, &[IoSlice::new(&two)]);
    store.zero(0, 2);
    let carried = |kind, offset, address| Carried { kind, offset, length: 2, code: Code::DONE, address };
    let wanted = [
        (carried(Kind::Write, 1, two.as_ptr() as usize), vec![1, 2, 2, 1]),
        (carried(Kind::Zero, 0, 0), vec![0, 0, 2, 1]),
    ];
    assert_eq!(*seen.lock().unwrap(), wanted);
}

#[test]
fn requests_are_delayed() {
    let delay = Duration::from_millis(5);
    let store = FaultyStore::new(vec![1; 4], Faults { delayed: 1, delay, ..faults(0, 0) });
    let start = Instant::now();
    assert_eq!((store.zero(0, 1), store.zero(1, 1)), (Code::DONE, Code::DONE));
    assert!(start.elapsed() >= 2 * delay);
}
