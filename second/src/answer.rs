//! How a call answers into a lent buffer.

/// Refusal 1 of the scope paper, section Numbered refusals of calls, as it
/// stands for every call but those of the device.
pub const TOO_LITTLE_ROOM: u8 = 1;

/// What a call comes to before its room is looked at: the bytes of its output,
/// or the number of its refusal.
pub type Outcome = Result<Vec<u8>, u8>;

/// The refusal number (0 for none) and the length of the output.
pub type Answer = (u8, usize);

/// Puts an outcome into the lent buffer.
///
/// The scope paper, section Numbered refusals of calls, names the room last for
/// every call that lends a buffer, so any other refusal has been found by now. A
/// refusal leaves the whole buffer alone, a success all that lies behind its
/// output.
pub fn give(outcome: Outcome, out: &mut [u8]) -> Answer {
    match outcome {
        Err(refusal) => (refusal, 0),
        Ok(output) if output.len() > out.len() => (TOO_LITTLE_ROOM, 0),
        Ok(output) => {
            out[..output.len()].copy_from_slice(&output);
            (0, output.len())
        }
    }
}

#[cfg(test)]
mod tests {
    use super::give;

    #[test]
    fn a_success_writes_its_output_and_nothing_after_it() {
        let mut out = [9; 4];
        assert_eq!(give(Ok(vec![1, 2, 3]), &mut out), (0, 3));
        assert_eq!(out, [1, 2, 3, 9]);
    }

    #[test]
    fn an_output_may_fill_the_buffer() {
        let mut out = [9; 2];
        assert_eq!(give(Ok(vec![1, 2]), &mut out), (0, 2));
        assert_eq!(out, [1, 2]);
    }

    #[test]
    fn too_little_room_changes_no_byte() {
        let mut out = [9; 2];
        assert_eq!(give(Ok(vec![1, 2, 3]), &mut out), (1, 0));
        assert_eq!(out, [9, 9]);
    }

    #[test]
    fn a_refusal_changes_no_byte() {
        let mut out = [9; 2];
        assert_eq!(give(Err(12), &mut out), (12, 0));
        assert_eq!(out, [9, 9]);
    }
}
