//! Memory lent to a call of the archive, with guard elements before and after it.

/// The guard elements after the lent ones.
const AFTER: usize = 64;

pub struct Lent<T> {
    store: Vec<T>,
    guard: T,
    before: usize,
    count: usize,
}

impl<T: Copy + PartialEq> Lent<T> {
    /// A copy of the content, with so many guard elements before it.
    pub fn new(content: &[T], guard: T, before: usize) -> Lent<T> {
        let mut store = vec![guard; before];
        store.extend_from_slice(content);
        store.extend(vec![guard; AFTER]);
        Lent { store, guard, before, count: content.len() }
    }

    pub fn pointer(&mut self) -> *mut T {
        self.store[self.before..].as_mut_ptr()
    }

    pub fn content(&self) -> &[T] {
        &self.store[self.before..self.before + self.count]
    }

    pub fn content_mut(&mut self) -> &mut [T] {
        &mut self.store[self.before..self.before + self.count]
    }

    /// Whether every guard element has kept its value.
    pub fn guards_kept(&self) -> bool {
        let guards = self.store[..self.before].iter().chain(&self.store[self.before + self.count..]);
        guards.into_iter().all(|element| *element == self.guard)
    }
}
