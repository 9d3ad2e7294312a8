//! The device calls, proved against second: histories call by call, calls that are
//! refused, and starts.

mod breaks;
mod counts;
mod histories;
mod refused;
mod start;

use compare::alike::device::Call;
use second::material::history::{random_pieces, Event};
use second::random::Random;
use second::table::store::SIZE;

/// The lengths that stores must have.
const SIZES: [usize; 2] = [SIZE; 2];

/// The calls that hand a history over, its bytes in random pieces.
fn calls_of<'a>(random: &mut Random, history: &'a [Event]) -> Vec<Call<'a>> {
    let mut calls = Vec::new();
    for event in history {
        match event {
            Event::Timeout => calls.push(Call::Timeout),
            Event::Restart => calls.push(Call::Restart),
            Event::Bytes(bytes) => {
                calls.extend(random_pieces(random, bytes).into_iter().map(Call::Receive));
            }
        }
    }
    calls
}
