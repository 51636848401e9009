//! What a state may hold.

use crate::port::Checked;
use crate::port::asked::Asked;
use crate::port::board::BURST;
use crate::port::lent::Lent;
use crate::port::liar::Liar;
use crate::port::library::Library;
use crate::port::lying;
use crate::random::Random;

/// What a state begins with that a call has written.
const WRITTEN: [u8; 2] = [0x50, 0x76];

/// Random bytes; the same, marked as a call marks them; or what a job left, a few bytes changed.
pub fn random(library: Library, length: usize, random: &mut Random) -> Vec<u8> {
    let mut content = random.bytes(length);
    match random.below(4) {
        0 | 1 => {}
        2 => {
            if let Some(first) = content.first_chunk_mut() {
                *first = WRITTEN;
            }
        }
        _ => change_a_job(&mut content, library, random),
    }
    content
}

/// Begins with what a job left, but for a few bytes.
fn change_a_job(content: &mut [u8], library: Library, random: &mut Random) {
    // Where the library is wrong, that shows elsewhere.
    let left = amid_a_job(library, random).unwrap_or_default();
    for (place, byte) in content.iter_mut().zip(left) {
        *place = byte;
    }
    for _ in 0..random.below(4) {
        let place = random.below(content.len().max(1));
        if let Some(place) = content.get_mut(place) {
            *place = random.byte();
        }
    }
}

/// The state of a job on a chip that lies, after some of its steps.
fn amid_a_job(library: Library, random: &mut Random) -> Checked<Vec<u8>> {
    let mut lent = Lent::new(library);
    let mut liar = Liar::new(random);
    lying::recover(&mut lent, &mut liar)?;
    let first = lent.start(&Asked::well_formed(random))?;
    let most = random.pick(&[5, 20, 100]);
    let (mut steps, mut content) = (1 + random.below(most), Vec::new());
    lying::run(&mut lent, &mut liar, first, BURST, |lent, _| {
        if steps > 0 {
            steps -= 1;
            content = lent.content().to_vec();
        }
        Ok(())
    })?;
    Ok(content)
}
