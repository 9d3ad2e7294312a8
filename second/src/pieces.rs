//! Bytes that are one piece after another: blocks, parameters, tags, objects,
//! records.

/// Takes pieces off the front until nothing is left, or until one cannot be
/// taken: its refusal is then the answer.
pub fn all<'a, T, Refusal>(
    mut rest: &'a [u8],
    first: impl Fn(&'a [u8]) -> Result<(T, &'a [u8]), Refusal>,
) -> Result<Vec<T>, Refusal> {
    let mut pieces = Vec::new();
    while !rest.is_empty() {
        let (piece, after) = first(rest)?;
        pieces.push(piece);
        rest = after;
    }
    Ok(pieces)
}

#[cfg(test)]
mod tests {
    use super::all;

    /// A byte that tells how many follow it.
    fn counted(bytes: &[u8]) -> Result<(&[u8], &[u8]), u8> {
        let (count, after) = bytes.split_first().ok_or(1)?;
        after.split_at_checked(usize::from(*count)).ok_or(2)
    }

    #[test]
    fn pieces_come_in_order() {
        let pieces: Vec<&[u8]> = vec![&[7], &[], &[8, 9]];
        assert_eq!(all(&[1, 7, 0, 2, 8, 9], counted), Ok(pieces));
        assert_eq!(all(&[], counted), Ok(vec![]));
    }

    #[test]
    fn a_piece_that_cannot_be_taken_is_the_answer() {
        assert_eq!(all(&[1, 7, 3, 8, 9], counted), Err(2));
    }
}
