// The calls with their own numbers, and what include/bannogwy.h lets each of them answer.

#[derive(Clone, Copy, Debug)]
pub enum Call {
    Fresh,
    Count,
    FirstWaiting,
    Deliver { sender: usize, receiver: usize, destination: usize, number: usize },
    Run { limit: u32 },
    Lookup { node: usize, destination: usize },
    Carry { node: usize, destination: usize, limit: usize },
    TallyAdd { deliveries: u64, offers: u64, refused: u32 },
    StackCount { p: usize, h: usize },
    NumberOf { p: usize, h: usize },
    StackOf { p: usize, h: usize, number: usize },
    Applied { p: usize, h: usize, function: usize, number: usize },
    InverseOf { p: usize, function: usize },
    ReadStack { h: usize },
}

// stands for read_stack's 9 that is tested last, where 9 is the one that is tested first
pub const NO_ROOM_LAST: u64 = 90;

// `zero` and `more`: whether it can answer 0, and a number above 0. The tally answers nothing: 1 stands for a counter that stops.
pub struct Kind {
    pub name: &'static str,
    pub zero: bool,
    pub more: bool,
    pub refusals: &'static [u64],
}

const fn kind(name: &'static str, zero: bool, more: bool, refusals: &'static [u64]) -> Kind {
    Kind { name, zero, more, refusals }
}

pub const KINDS: [Kind; 14] = [
    kind("bannogwy_fresh", true, true, &[1, 2, 3]),
    kind("bannogwy_count", true, true, &[1, 2, 3]),
    kind("bannogwy_first_waiting", true, true, &[1, 2, 3]),
    kind("bannogwy_deliver", true, true, &[1, 2, 3, 4, 5, 7]),
    kind("bannogwy_run", true, false, &[1, 2, 3, 4, 7, 9]),
    kind("bannogwy_lookup", true, true, &[1, 2, 3, 4, 6, 7]),
    kind("bannogwy_carry", true, false, &[1, 2, 3, 4, 6, 7, 8, 9]),
    kind("bannogwy_tally_add", true, true, &[]),
    kind("bannogwy_stack_count", false, true, &[4]),
    kind("bannogwy_number_of", false, true, &[4]),
    kind("bannogwy_stack_of", false, true, &[4]),
    kind("bannogwy_applied", true, true, &[4]),
    kind("bannogwy_inverse_of", true, true, &[4]),
    kind("bannogwy_read_stack", true, false, &[1, 9, 61, 62, 63, 64, 65, 66, 67, NO_ROOM_LAST]),
];

impl Call {
    // its place in KINDS
    pub fn kind(&self) -> usize {
        match self {
            Call::Fresh => 0,
            Call::Count => 1,
            Call::FirstWaiting => 2,
            Call::Deliver { .. } => 3,
            Call::Run { .. } => 4,
            Call::Lookup { .. } => 5,
            Call::Carry { .. } => 6,
            Call::TallyAdd { .. } => 7,
            Call::StackCount { .. } => 8,
            Call::NumberOf { .. } => 9,
            Call::StackOf { .. } => 10,
            Call::Applied { .. } => 11,
            Call::InverseOf { .. } => 12,
            Call::ReadStack { .. } => 13,
        }
    }
}
