//! Buffers as they are lent to a call: each in an allocation of its own, at a random place, with canaries in front and behind.

use crate::random::Random;

pub struct Lent {
    name: &'static str,
    whole: Vec<u8>,
    before: Vec<u8>,
    at: usize,
    len: usize,
    /// A pointer with a length of 0 may be NULL.
    null: bool,
}

impl Lent {
    /// `canaries` bytes stand behind the buffer, and up to 15 more than that in front, so that it begins at any place within a word.
    /// With 0 the allocation is the buffer alone, and a memory checker sees what lies outside.
    pub fn new(name: &'static str, contents: &[u8], canaries: usize, random: &mut Random) -> Lent {
        let (len, null) = (contents.len(), contents.is_empty() && random.one_in(2));
        let at = if canaries == 0 { 0 } else { canaries + random.below(16) };
        let mut whole = vec![0; at + len + canaries];
        random.fill(&mut whole[..at]);
        whole[at..at + len].copy_from_slice(contents);
        random.fill(&mut whole[at + len..]);
        Lent { name, before: whole.clone(), whole, at, len, null }
    }

    pub fn name(&self) -> &'static str {
        self.name
    }

    pub fn read(&self) -> *const u8 {
        if self.null {
            std::ptr::null()
        } else {
            self.whole[self.at..].as_ptr()
        }
    }

    pub fn written(&mut self) -> *mut u8 {
        if self.null {
            std::ptr::null_mut()
        } else {
            self.whole[self.at..].as_mut_ptr()
        }
    }

    pub fn len(&self) -> usize {
        self.len
    }

    pub fn contents(&self) -> &[u8] {
        &self.whole[self.at..self.at + self.len]
    }

    /// What the buffer held when it was lent.
    pub fn lent(&self) -> &[u8] {
        &self.before[self.at..self.at + self.len]
    }

    pub fn canaries_stand(&self) -> bool {
        let end = self.at + self.len;
        self.whole[..self.at] == self.before[..self.at] && self.whole[end..] == self.before[end..]
    }
}
