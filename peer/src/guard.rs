//! Slices lent from the middle of a longer run of words, so that a write outside them is seen.

/// A slice of words within a longer run of words, which begins and ends with guard words.
pub struct Guarded {
    pub words: Vec<u32>,
}

const GUARD: usize = 8;

impl Guarded {
    pub fn around(content: &[u32]) -> Guarded {
        let mut words: Vec<u32> = (0..GUARD).map(Guarded::guard).collect();
        words.extend_from_slice(content);
        words.extend((0..GUARD).map(Guarded::guard));
        Guarded { words }
    }

    fn guard(place: usize) -> u32 {
        0x5a3c_9600 + place as u32
    }

    pub fn slice(&mut self) -> &mut [u32] {
        let end = self.words.len() - GUARD;
        &mut self.words[GUARD..end]
    }

    pub fn content(&self) -> Vec<u32> {
        self.words[GUARD..self.words.len() - GUARD].to_vec()
    }

    pub fn surroundings_kept(&self) -> bool {
        let end = self.words.len() - GUARD;
        (0..GUARD).all(|place| {
            self.words[place] == Guarded::guard(place) && self.words[end + place] == Guarded::guard(place)
        })
    }
}
