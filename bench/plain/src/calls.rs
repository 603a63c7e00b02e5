//! A file of calls: each a byte for its kind, two for the length of what it brings, and those bytes.

/// A call and the bytes that it brings.
#[derive(Clone, Copy, PartialEq, Eq, Debug)]
pub enum Call<'a> {
    Incremental(&'a [u8]),
    Snapshot(&'a [u8]),
    /// The caller writes bytes into the shelf: two bytes say where, and the others are written.
    Poke(&'a [u8]),
    Join,
    Leave,
}

/// What is left of a file of calls.
pub struct Calls<'a> {
    pub rest: &'a [u8],
}

impl<'a> Iterator for Calls<'a> {
    type Item = Call<'a>;

    /// The next call; a file that is cut or names another kind ends there.
    #[inline(always)]
    fn next(&mut self) -> Option<Call<'a>> {
        let [kind, low, high, rest @ ..] = self.rest else { return None };
        let (bytes, rest) = rest.split_at_checked(u16::from_le_bytes([*low, *high]) as usize)?;
        self.rest = rest;
        Some(match kind {
            0 => Call::Incremental(bytes),
            1 => Call::Snapshot(bytes),
            2 => Call::Poke(bytes),
            3 => Call::Join,
            4 => Call::Leave,
            _ => return None,
        })
    }
}

/// Writes into the shelf what a poke says, where it lies inside.
pub fn poke(shelf: &mut [u8], bytes: &[u8]) {
    if let [low, high, rest @ ..] = bytes {
        let at = u16::from_le_bytes([*low, *high]) as usize;
        if let Some(place) = shelf.get_mut(at..at + rest.len()) {
            place.copy_from_slice(rest);
        }
    }
}

#[cfg(test)]
mod tests {
    use super::*;

    #[test]
    fn a_file_ends_where_it_is_cut() {
        let calls: Vec<Call> = Calls { rest: &[3, 0, 0, 0, 2, 0, 7, 8, 1, 5, 0, 1] }.collect();
        assert_eq!(calls, [Call::Join, Call::Incremental(&[7, 8])]);
    }

    #[test]
    fn a_poke_outside_the_shelf_changes_nothing() {
        let mut shelf = [0; 4];
        poke(&mut shelf, &[3, 0, 9, 9]);
        assert_eq!(shelf, [0; 4]);
        poke(&mut shelf, &[2, 0, 9, 9]);
        assert_eq!(shelf, [0, 0, 9, 9]);
    }
}
