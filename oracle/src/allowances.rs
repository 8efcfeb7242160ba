// Allowances of row reductions: those that a call is given, and how its work meets them.
use crate::call::Call;
use crate::functions::reductions;
use crate::pivots::Judge;
use crate::source::Source;

// as good as none
pub const NONE: u64 = u64::MAX;

// How the work of a call ends.
#[derive(Clone, Copy, Debug, PartialEq, Eq, PartialOrd, Ord)]
pub enum Met {
    // refused with 18
    Beyond,
    // refused with 13 before that
    Singular,
    // refused with 20 before that
    NotFinite,
    // accepted, with an allowance that is the count, above 0
    Exactly,
    // accepted otherwise
    Within,
}

impl Met {
    pub const ALL: [Met; 5] = [Met::Beyond, Met::Singular, Met::NotFinite, Met::Exactly, Met::Within];

    pub fn number(self) -> u32 {
        match self {
            Met::Beyond => 18,
            Met::Singular => 13,
            Met::NotFinite => 20,
            Met::Exactly | Met::Within => 0,
        }
    }

    pub fn of(number: u32, allowance: u64, rows: u64) -> Self {
        match number {
            18 => Met::Beyond,
            13 => Met::Singular,
            20 => Met::NotFinite,
            _ if allowance == rows && rows > 0 => Met::Exactly,
            _ => Met::Within,
        }
    }
}

// Of a call that eliminates: how its work ends, and who tells the row reductions until it ends without an allowance, none where
// there are none.
pub struct Allowed {
    pub met: Met,
    pub counted_by: Option<Judge>,
}

// every allowance up to one more than the most row reductions, and none
pub fn each(call: Call, visit: &mut dyn FnMut(Call)) {
    let (_, most) = reductions(&call).expect("a call that takes an allowance");
    for allowance in (0..=most + 1).chain([NONE]) {
        visit(call.clone().allowing(allowance));
    }
}

// the call with an allowance around its row reductions, around their bounds, or any
pub fn drawn(s: &mut Source, call: Call) -> Call {
    let Some((rows, most)) = reductions(&call) else {
        return call;
    };
    let any = [
        s.below(most as usize + 2) as u64,
        s.bits() >> s.below(64),
        1 << 32,
        1 << 63,
    ];
    let from = [rows.saturating_sub(1), rows, rows + 1, 0, most, NONE, s.pick(&any)];
    call.allowing(s.pick(&from))
}
