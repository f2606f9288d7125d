//! imago's write blockers, vectors and `pure_write_full_zeroes`, each alone.

use crate::document;
use crate::executor::Task;
use crate::memory::Data;
use crate::port::Port;
use crate::side::{Blockers, Halves, Opening, Planner, Segment, Tail, Vectors, SLOTS};
use imago::io_buffers::{IoVector, IoVectorMut};
use imago::storage::drivers::CommonStorageHelper;
use imago::Storage;
use std::cell::Cell;
use std::fmt::{self, Display, Formatter};
use std::future::pending;
use std::io::{self, IoSlice};
use std::ops::Range;
use std::rc::Rc;
use std::sync::Arc;

/// A blocker that is entered; its task holds imago's guard until it is dropped.
struct Guarded {
    task: Task<()>,
    has_guard: Rc<Cell<bool>>,
}

#[derive(Default)]
pub struct ImagoBlockers {
    entered: [Option<Guarded>; SLOTS],
    helper: Arc<CommonStorageHelper>,
}

impl ImagoBlockers {
    fn poll_woken(&mut self) {
        for guarded in self.entered.iter_mut().flatten() {
            if guarded.task.is_woken() {
                guarded.task.poll();
            }
        }
    }
}

impl Blockers for ImagoBlockers {
    fn enter(&mut self, slot: usize, range: Range<u64>, strong: bool) {
        let has_guard = Rc::new(Cell::new(false));
        let (helper, got) = (Arc::clone(&self.helper), Rc::clone(&has_guard));
        let mut task = Task::new(async move {
            let _guard = match strong {
                true => helper.strong_write_blocker(range).await,
                false => helper.weak_write_blocker(range).await,
            };
            got.set(true);
            pending().await
        });
        task.poll();
        self.entered[slot] = Some(Guarded { task, has_guard });
    }

    fn waits(&self, slot: usize) -> bool {
        self.entered[slot].as_ref().is_some_and(|g| !g.has_guard.get())
    }

    /// One that waits may leave too: imago's guard is there before its wait.
    fn leave(&mut self, slot: usize) {
        self.entered[slot] = None;
        self.poll_woken();
    }
}

/// imago's vectors over a data buffer at an address that is a multiple of every alignment, joined as in document 02.
pub struct ImagoVectors {
    data: Data,
}

impl ImagoVectors {
    pub fn new(bytes: &[u8]) -> Self {
        ImagoVectors { data: Data::new(bytes) }
    }

    /// The bytes of imago's copy of a vector into a buffer of its own.
    pub fn owned(&self, v: &[Segment]) -> Vec<u8> {
        let buffer = self.data.vector(v).try_into_owned(1).expect("memory for the copy");
        buffer.as_ref().into_slice().to_vec()
    }

    fn segments(&self, v: IoVector<'static>) -> Vec<Segment> {
        let inner = v.into_inner();
        inner.iter().map(|slice| self.segment(slice)).collect()
    }

    fn segment(&self, slice: &IoSlice<'_>) -> Segment {
        let start = self.data.position(slice.as_ptr() as usize).expect("the vector points to the data");
        Segment { start, length: slice.len() as u64 }
    }

    /// How many segments a split looks at: document 02's number, from imago's own parts, as imago counts nothing.
    fn looked(&self, v: &[Segment], mid: u64) -> u64 {
        let whole = self.data.vector(v);
        let is_past_half = 2 * u128::from(mid) > u128::from(whole.len());
        let (head, tail) = whole.split_at(mid);
        (if is_past_half { tail } else { head }).buffer_count() as u64
    }

    /// The vector after a call that takes new segments, joined at the seams of that call, which are named from the last
    /// to the first. imago itself joins nothing and refuses nothing: the refusals are those of documents 01 and 02.
    fn changed(
        &self,
        (v, new): (&[Segment], &[Segment]),
        seams: &[usize],
        call: impl FnOnce() -> IoVector<'static>,
    ) -> Result<Vec<Segment>, u8> {
        let accepted = |list: &[Segment]| document::vector(list, self.data.bytes().len() as u64) == 0;
        if !accepted(v) || !accepted(new) {
            return Err(document::SEGMENT);
        }
        let joined = seams.iter().fold(self.segments(call()), |list, at| joined_at(list, *at));
        accepted(&joined).then_some(joined).ok_or(document::SEGMENT)
    }
}

/// The list with the segments before and after a seam as one, where they touch; a seam at an end has but one of them.
pub fn joined_at(mut list: Vec<Segment>, seam: usize) -> Vec<Segment> {
    if let Some([left, right]) = seam.checked_sub(1).and_then(|i| list.get_mut(i..=seam)) {
        if left.start + left.length == right.start {
            left.length += right.length;
            list.remove(seam);
        }
    }
    list
}

impl Vectors for ImagoVectors {
    fn push(&mut self, v: &[Segment], s: Segment) -> Result<Vec<Segment>, u8> {
        self.changed((v, &[s]), &[v.len()], || {
            let mut vector = self.data.vector(v);
            vector.push(self.data.slice(&s));
            vector
        })
    }

    fn insert(&mut self, v: &[Segment], index: usize, s: Segment) -> Result<Vec<Segment>, u8> {
        if index > v.len() {
            return Err(document::SEGMENT);
        }
        self.changed((v, &[s]), &[index + 1, index], || {
            let mut vector = self.data.vector(v);
            vector.insert(index, self.data.slice(&s));
            vector
        })
    }

    fn append(&mut self, v: &[Segment], other: &[Segment]) -> Result<Vec<Segment>, u8> {
        self.changed((v, other), &[v.len()], || {
            let mut vector = self.data.vector(v);
            vector.append(self.data.vector(other));
            vector
        })
    }

    fn split_at(&mut self, v: &[Segment], mid: u64) -> Halves {
        let looked = self.looked(v, mid);
        let (head, tail) = self.data.vector(v).split_at(mid);
        Halves { head: self.segments(head), tail: self.segments(tail), looked }
    }

    fn split_tail_at(&mut self, v: &[Segment], mid: u64) -> Tail {
        let looked = self.looked(v, mid);
        Tail { segments: self.segments(self.data.vector(v).split_tail_at(mid)), looked }
    }

    fn copy_into_slice(&mut self, v: &[Segment], slice: &mut [u8]) -> u8 {
        if slice.len() as u64 != document::total(v) {
            return document::SEGMENT;
        }
        self.data.vector(v).copy_into_slice(slice);
        0
    }

    fn copy_from_slice(&mut self, v: &[Segment], slice: &[u8]) -> u8 {
        if slice.len() as u64 != document::total(v) {
            return document::SEGMENT;
        }
        self.data.vector_mut(v).copy_from_slice(slice);
        0
    }

    fn fill(&mut self, v: &[Segment], value: u8) {
        self.data.vector_mut(v).fill(value);
    }

    fn is_aligned(&mut self, v: &[Segment], mem: u64, req: u64) -> bool {
        self.data.vector(v).is_aligned(mem as usize, req as usize)
    }

    fn data(&self) -> &[u8] {
        self.data.bytes()
    }
}

/// A storage object that has no zero requests of its own, so that imago's default for them runs: `pure_write_full_zeroes`.
#[derive(Debug)]
struct FullZeroes(Port);

impl Storage for FullZeroes {
    fn mem_align(&self) -> usize {
        self.0.mem_align()
    }

    fn req_align(&self) -> usize {
        self.0.req_align()
    }

    fn size(&self) -> io::Result<u64> {
        self.0.size()
    }

    async unsafe fn pure_readv(&self, bufv: IoVectorMut<'_>, offset: u64) -> io::Result<()> {
        unsafe { self.0.pure_readv(bufv, offset).await }
    }

    async unsafe fn pure_writev(&self, bufv: IoVector<'_>, offset: u64) -> io::Result<()> {
        unsafe { self.0.pure_writev(bufv, offset).await }
    }

    async fn flush(&self) -> io::Result<()> {
        self.0.flush().await
    }

    async fn sync(&self) -> io::Result<()> {
        self.0.sync().await
    }

    async unsafe fn invalidate_cache(&self) -> io::Result<()> {
        unsafe { self.0.invalidate_cache().await }
    }

    fn get_storage_helper(&self) -> &CommonStorageHelper {
        self.0.get_storage_helper()
    }
}

impl Display for FullZeroes {
    fn fmt(&self, f: &mut Formatter<'_>) -> fmt::Result {
        self.0.fmt(f)
    }
}

pub struct ImagoPlanner;

impl ImagoPlanner {
    /// The writes that imago makes, each told 0.
    fn writes(&self, opening: &Opening, offset: u64, length: u64) -> Result<Vec<(u64, u64)>, u8> {
        let storage = Arc::new(FullZeroes(Port::new(opening.align)));
        let asked = Arc::clone(&storage);
        let mut task = Task::new(async move { unsafe { asked.pure_write_zeroes(offset, length).await } });
        let mut chunks = Vec::new();
        loop {
            match task.poll() {
                Some(Ok(())) => return Ok(chunks),
                Some(Err(e)) if e.kind() == io::ErrorKind::InvalidInput => return Err(document::UNALIGNED),
                Some(Err(e)) => panic!("imago answers with an error that has no number: {e}"),
                None => {
                    let write = storage.0.pending(0).expect("a write is out");
                    chunks.push((write.offset, write.length));
                    storage.0.tell(0, 0);
                }
            }
        }
    }
}

impl Planner for ImagoPlanner {
    fn chunks(&mut self, opening: &Opening, offset: u64, length: u64) -> Result<Vec<(u64, u64)>, u8> {
        match document::settings(&opening.align, opening.bounce) {
            0 => self.writes(opening, offset, length),
            refusal => Err(refusal),
        }
    }
}
