//! The jobs in flight, by slot, and whose request comes next.

use super::source::{Job, Tally};
use super::Order;
use crate::dock::SLOTS;
use crate::draw::Draw;

/// What the job in a slot is at.
#[derive(Clone, Copy, Debug, PartialEq, Eq)]
pub(super) enum State {
    /// It waits for a job in another slot.
    Waiting,
    /// A request is due, and nobody carries it out yet. The number is the time from which on it was due.
    Due(u64),
    /// A request is being carried out.
    Out,
}

/// A job in flight.
#[derive(Clone, Copy, Debug)]
pub(super) struct Seat {
    pub state: State,
    pub number: u64,
    pub job: Job,
    pub tally: Tally,
}

/// The jobs in flight, by slot.
pub(super) struct Seats {
    seats: [Option<Seat>; SLOTS],
    /// How many there are.
    count: usize,
    /// Counts requests that became due.
    clock: u64,
    /// The slot whose request was taken last.
    last: usize,
    draw: Draw,
}

impl Seats {
    pub fn new(order: Order) -> Seats {
        let seed = if let Order::Seed(seed) = order { seed } else { 0 };
        Seats { seats: [None; SLOTS], count: 0, clock: 0, last: SLOTS - 1, draw: Draw::new(seed) }
    }

    /// The lowest free slot.
    pub fn free(&self) -> Option<usize> {
        self.seats.iter().position(Option::is_none)
    }

    pub fn is_empty(&self) -> bool {
        self.count == 0
    }

    /// Puts a job into a free slot.
    pub fn put(&mut self, slot: usize, number: u64, job: Job) {
        self.count += 1;
        self.seats[slot] = Some(Seat { state: State::Waiting, number, job, tally: Tally::default() });
    }

    /// The job of a slot in flight.
    pub fn seat(&mut self, slot: usize) -> &mut Seat {
        self.seats[slot].as_mut().expect("only slots in flight are asked for")
    }

    /// Frees a slot in flight.
    pub fn leave(&mut self, slot: usize) -> Seat {
        self.count -= 1;
        self.seats[slot].take().expect("only slots in flight are left")
    }

    /// Notes that a request of a slot in flight is due from now on.
    pub fn mark_due(&mut self, slot: usize) {
        self.clock += 1;
        self.seat(slot).state = State::Due(self.clock);
    }

    /// Whether the job of a slot waits.
    pub fn waits(&self, slot: usize) -> bool {
        matches!(self.seats[slot], Some(Seat { state: State::Waiting, .. }))
    }

    /// Slot and number of the jobs that wait.
    pub fn waiting(&self) -> impl Iterator<Item = (usize, u64)> + '_ {
        let waits = |seat: &Seat| (seat.state == State::Waiting).then_some(seat.number);
        self.seats.iter().enumerate().filter_map(move |(slot, seat)| Some((slot, seat.as_ref().and_then(waits)?)))
    }

    /// Slot and time of the requests that are due.
    fn due(&self) -> impl Iterator<Item = (usize, u64)> + '_ {
        self.seats.iter().enumerate().filter_map(|(slot, seat)| match seat {
            Some(Seat { state: State::Due(time), .. }) => Some((slot, *time)),
            _ => None,
        })
    }

    /// Takes the slot whose request comes next; none where no request is due.
    pub fn take_due(&mut self, order: Order) -> Option<usize> {
        let slot = match order {
            Order::First => self.due().min_by_key(|&(_, time)| time)?.0,
            Order::RoundRobin => {
                let after = |slot: usize| (slot + SLOTS - self.last - 1) % SLOTS;
                self.due().min_by_key(|&(slot, _)| after(slot))?.0
            }
            Order::Seed(_) => {
                let count = self.due().count() as u64;
                let drawn = if count > 1 { self.draw.below(count) } else { 0 };
                self.due().nth(drawn as usize)?.0
            }
        };
        self.seat(slot).state = State::Out;
        self.last = slot;
        Some(slot)
    }
}

#[cfg(test)]
mod tests {
    use super::*;
    use crate::answer::Kind;

    /// Seats with requests due in these slots, in this order.
    fn due_in(slots: &[usize], order: Order) -> Seats {
        let mut seats = Seats::new(order);
        for &slot in slots {
            seats.put(slot, 100 + slot as u64, Job { kind: Kind::Discard, offset: 0, length: 1 });
            seats.mark_due(slot);
        }
        seats
    }

    fn all_taken(slots: &[usize], order: Order) -> Vec<usize> {
        let mut seats = due_in(slots, order);
        std::iter::from_fn(|| seats.take_due(order)).collect()
    }

    #[test]
    fn the_longest_due_comes_first() {
        assert_eq!(all_taken(&[3, 0, 7, 1], Order::First), [3, 0, 7, 1]);
        assert_eq!(all_taken(&[], Order::First), []);
    }

    #[test]
    fn round_robin_goes_on_after_the_slot_served_last() {
        assert_eq!(all_taken(&[3, 0, 7, 1], Order::RoundRobin), [0, 1, 3, 7]);
        let mut seats = due_in(&[1, 4], Order::RoundRobin);
        let mut taken = Vec::new();
        for _ in 0..4 {
            let slot = seats.take_due(Order::RoundRobin).unwrap();
            seats.mark_due(slot);
            taken.push(slot);
        }
        assert_eq!(taken, [1, 4, 1, 4]);
    }

    #[test]
    fn a_seed_draws_the_same_each_time_and_every_order_comes_up() {
        let mut seen: Vec<Vec<usize>> = Vec::new();
        for seed in 0..200 {
            let taken = all_taken(&[2, 5, 6], Order::Seed(seed));
            assert_eq!(taken, all_taken(&[2, 5, 6], Order::Seed(seed)));
            if !seen.contains(&taken) {
                seen.push(taken);
            }
        }
        assert_eq!(seen.len(), 6);
    }

    #[test]
    fn those_that_wait_are_told_and_not_taken() {
        let mut seats = due_in(&[2], Order::First);
        seats.put(5, 105, Job { kind: Kind::Discard, offset: 0, length: 1 });
        assert_eq!(seats.waiting().collect::<Vec<_>>(), [(5, 105)]);
        assert_eq!((seats.free(), seats.is_empty()), (Some(0), false));
        assert_eq!((seats.take_due(Order::First), seats.take_due(Order::First)), (Some(2), None));
        assert_eq!((seats.leave(2).number, seats.leave(5).number, seats.is_empty()), (102, 105, true));
    }
}
