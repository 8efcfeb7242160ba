// A slice's way to an entry and back. It is lent as bytes, at any alignment; numbers, words and bus numbers go on into an aligned
// room, and back, by the port's own conversions.
use crate::expected::After;
use crate::header::{Function, Of, Slice};
use crate::port::{Lent, Part, Port};
use crate::room::Room;
use crate::words::{elements_of, plain};

// the conversions there and back; none of bytes, which are handed over as they are
fn conversions(of: Of) -> Option<[Function; 2]> {
    match of {
        Of::Numbers => Some([Function::NumbersOfBytes, Function::BytesOfNumbers]),
        Of::Words => Some([Function::WordsOfBytes, Function::BytesOfWords]),
        Of::BusNumbers => Some([Function::BusNumbersOfBytes, Function::BytesOfBusNumbers]),
        Of::Bytes => None,
    }
}

pub struct Crossing {
    slice: Slice,
    lent: Lent,
    // and the conversion back
    room: Option<(Room, Function)>,
}

impl Crossing {
    pub fn to(port: Port, slice: Slice, bytes: &[u8], shift: usize) -> Result<Self, String> {
        let mut lent = Lent::of(bytes, shift);
        let Some([there, back]) = conversions(slice.of) else {
            return Ok(Crossing {
                slice,
                lent,
                room: None,
            });
        };
        let mut room = Room::of(slice.of, bytes.len() / slice.of.width());
        let number = port(there, &[], &[], &[lent.part(), room.part()]);
        let given = elements_of(slice.of, bytes);
        let read = plain(slice.of, &room.words()) == plain(slice.of, &given) && room.guards_held();
        if number != 0 || !read || lent.bytes() != bytes || !lent.edges_held() {
            return Err(format!("{there:?} answered {number} and gave {:x?}", room.words()));
        }
        if slice.of == Of::Numbers {
            room.vary(&given);
        }
        room.mark();
        Ok(Crossing {
            slice,
            lent,
            room: Some((room, back)),
        })
    }

    pub fn part(&mut self) -> Part {
        match &mut self.room {
            Some((room, _)) => room.part(),
            None => self.lent.part(),
        }
    }

    // after the call: the room holds what it must, and so do the bytes
    pub fn back(mut self, port: Port, after: &After, before: &[u8]) -> Result<(), String> {
        let expected = after.bytes(self.slice.of, before);
        if let Some((room, back)) = &mut self.room {
            checked(room, self.slice, after, &elements_of(self.slice.of, &expected))?;
            room.mark();
            self.lent.flip();
            let number = port(*back, &[], &[], &[room.part(), self.lent.part()]);
            if number != 0 || !room.held() {
                return Err(format!("{back:?} answered {number} and left {:x?}", room.words()));
            }
        }
        if !self.lent.edges_held() {
            return Err("was written outside".to_string());
        }
        if self.lent.bytes() != expected {
            let [expected, got] = [&expected[..], self.lent.bytes()].map(|bytes| elements_of(self.slice.of, bytes));
            return Err(format!("must be {expected:x?} and comes back as {got:x?}"));
        }
        Ok(())
    }
}

fn checked(room: &Room, slice: Slice, after: &After, expected: &[u64]) -> Result<(), String> {
    if !room.guards_held() {
        return Err("was written outside".to_string());
    }
    let held = !slice.written || *after == After::Held;
    if (held && !room.held()) || plain(slice.of, &room.words()) != expected {
        return Err(format!("must be {expected:x?} and holds {:x?}", room.words()));
    }
    Ok(())
}
