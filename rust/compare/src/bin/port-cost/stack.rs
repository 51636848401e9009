//! The stack that the functions take: each is called on a stack that was painted, and as far as the
//! paint is gone it was taken. What a function that returns at once takes there is taken off.

use crate::painted;
use compare::port::library::{LIBRARY, Library};
use compare::port::step::Step;
use perlovasta_dock::STATE_LEN;
use std::hint::black_box;

/// The most bytes of a job.
const PLACES: usize = 68;

/// Two paints, so that a byte that is written as the one shows with the other.
const PAINTS: [u8; 2] = [0xA5, 0x5A];

/// Functions that return at once.
const NOTHING: Library = Library {
    start: |_, _, _, _, _| 3,
    recover: |_, _| 3,
    next: |_, _| 3,
    give_up: |_| 3,
    take: |_, _| 27,
};

/// A function, with what it is called with.
#[derive(Clone, Copy)]
enum Function {
    Start { kind: u8 },
    Recover,
    Next { value: u8 },
    GiveUp,
    Take,
}

/// The functions' names, in their order.
const NAMES: [&str; 5] = ["start", "recover", "next", "give_up", "take"];

/// The most bytes that each function took.
type Most = [usize; NAMES.len()];

/// Shows the most bytes that each function takes, in a recovery with settings, and a write and a
/// read of 68 bytes.
pub fn show() {
    let mut most = [0; NAMES.len()];
    for kind in [0, 1] {
        let mut state = [0; STATE_LEN];
        run(&mut state, Function::Recover, &[], &mut most);
        run(&mut state, Function::Start { kind }, looks(kind), &mut most);
        measure(&mut state, Function::Take, &mut most);
        measure(&mut state, Function::GiveUp, &mut most);
    }
    for (name, bytes) in NAMES.into_iter().zip(most) {
        println!("{name} {bytes}");
    }
}

/// What I2CCON and I2CSTA read at each look of a job that is done.
const fn looks(kind: u8) -> &'static [[u8; 2]] {
    match kind {
        0 => &[
            [0x40, 0xF8],
            [0x68, 0x08],
            [0x48, 0x18],
            [0x49, 0x28],
            [0x40, 0xF8],
        ],
        _ => &[
            [0x40, 0xF8],
            [0x68, 0x08],
            [0x48, 0x40],
            [0x49, 0x58],
            [0x49, 0x58],
            [0x40, 0xF8],
        ],
    }
}

/// Begins with this function and goes on until it is over.
fn run(state: &mut [u8], first: Function, looks: &[[u8; 2]], most: &mut Most) {
    let mut looks = looks.iter();
    let mut status = 0;
    let mut step = measure(state, first, most);
    while !matches!(Step::from_number(step), None | Some(Step::Over { .. })) {
        let value = match Step::from_number(step) {
            Some(Step::Read { register: 3 }) => {
                let look = looks.next().expect("a look for each time");
                status = look[1];
                look[0]
            }
            Some(Step::Read { register: 0 }) => status,
            _ => 0x5C,
        };
        step = measure(state, Function::Next { value }, most);
    }
    assert_eq!(step & 0xFFFF, 5, "over with 0");
}

/// Makes the call, and notes the stack that it took. The number that it gave.
fn measure(state: &mut [u8], function: Function, most: &mut Most) -> u32 {
    let most = &mut most[function.index()];
    for paint in PAINTS {
        let (alone, _) = taken(NOTHING, function, &mut state.to_vec(), paint);
        let (all, _) = taken(LIBRARY, function, &mut state.to_vec(), paint);
        *most = all.saturating_sub(alone).max(*most);
    }
    taken(LIBRARY, function, state, PAINTS[0]).1
}

/// The stack that the call took, with the call itself, and the number that it gave.
fn taken(library: Library, function: Function, state: &mut [u8], paint: u8) -> (usize, u32) {
    // Both libraries are called by the same code.
    let library = black_box(library);
    let (mut given, mut destination) = (0, [0; PLACES]);
    let mut call = || given = function.call(library, state, &mut destination);
    (painted::depth(paint, &mut call), given)
}

impl Function {
    #[inline(never)]
    fn call(self, library: Library, state: &mut [u8], destination: &mut [u8]) -> u32 {
        match self {
            Function::Start { kind } => (library.start)(state, kind, 0x50, 68, &[0x5C; PLACES]),
            Function::Recover => (library.recover)(state, &[4, 0xFF, 4, 0xFF, 4, 0xFF]),
            Function::Next { value } => (library.next)(state, value),
            Function::GiveUp => (library.give_up)(state),
            Function::Take => (library.take)(state, destination).into(),
        }
    }

    /// The place of its name.
    const fn index(self) -> usize {
        match self {
            Function::Start { .. } => 0,
            Function::Recover => 1,
            Function::Next { .. } => 2,
            Function::GiveUp => 3,
            Function::Take => 4,
        }
    }
}
