// An aligned room of numbers, words or bus numbers, as an entry takes them, with elements on both sides that no call may change.
use crate::header::Of;
use crate::numbers::NANS;
use crate::port::Part;
use crate::words::nan;

// an odd number, so that a room is aligned for its elements and no further
const GUARDS: usize = 3;
const GUARD: u64 = 0x5c5c_5c5c_5c5c_5c5c;

// of elements as they stand in memory
pub enum Room {
    Eight(Guarded<u64>),
    Four(Guarded<u32>),
}

pub struct Guarded<T> {
    // with the guards
    elements: Vec<T>,
    // the same when it was marked
    before: Vec<T>,
}

impl<T: Copy + PartialEq> Guarded<T> {
    fn of(count: usize, guard: T) -> Self {
        Guarded {
            elements: vec![guard; GUARDS + count + GUARDS],
            before: Vec::new(),
        }
    }

    fn part(&mut self) -> Part {
        let count = self.own().len();
        Part {
            at: self.elements[GUARDS..].as_mut_ptr().cast(),
            count,
        }
    }

    fn own(&self) -> &[T] {
        &self.elements[GUARDS..self.elements.len() - GUARDS]
    }

    fn guards_held(&self, guard: T) -> bool {
        let end = self.elements.len() - GUARDS;
        let mut guards = self.elements[..GUARDS].iter().chain(&self.elements[end..]);
        guards.all(|&e| e == guard)
    }
}

impl Room {
    pub fn of(of: Of, count: usize) -> Self {
        match of {
            Of::BusNumbers => Room::Four(Guarded::of(count, GUARD as u32)),
            _ => Room::Eight(Guarded::of(count, GUARD)),
        }
    }

    pub fn part(&mut self) -> Part {
        match self {
            Room::Eight(room) => room.part(),
            Room::Four(room) => room.part(),
        }
    }

    // the elements, each as a word
    pub fn words(&self) -> Vec<u64> {
        match self {
            Room::Eight(room) => room.own().to_vec(),
            Room::Four(room) => room.own().iter().map(|&e| e.into()).collect(),
        }
    }

    // what stands here now is what must be held
    pub fn mark(&mut self) {
        match self {
            Room::Eight(room) => room.before = room.elements.clone(),
            Room::Four(room) => room.before = room.elements.clone(),
        }
    }

    pub fn held(&self) -> bool {
        match self {
            Room::Eight(room) => room.elements == room.before,
            Room::Four(room) => room.elements == room.before,
        }
    }

    pub fn guards_held(&self) -> bool {
        match self {
            Room::Eight(room) => room.guards_held(GUARD),
            Room::Four(room) => room.guards_held(GUARD as u32),
        }
    }

    // of numbers: a NaN becomes, by its place, one of the list or the given one
    pub fn vary(&mut self, given: &[u64]) {
        let Room::Eight(room) = self else { return };
        for (i, &own) in given.iter().enumerate() {
            let element = &mut room.elements[GUARDS + i];
            if nan(*element) {
                *element = *NANS.get(i % (NANS.len() + 1)).unwrap_or(&own);
            }
        }
    }
}
