//! Values by their keys.

/// Values of one channel. A key is used again once its value is taken.
pub(crate) struct Slab<T> {
    places: Vec<Option<T>>,
    free: Vec<usize>,
}

impl<T> Default for Slab<T> {
    fn default() -> Self {
        Slab { places: vec![], free: vec![] }
    }
}

impl<T> Slab<T> {
    pub fn put(&mut self, value: T) -> u64 {
        match self.free.pop() {
            Some(at) => {
                self.places[at] = Some(value);
                at as u64
            }
            None => {
                self.places.push(Some(value));
                self.places.len() as u64 - 1
            }
        }
    }

    pub fn take(&mut self, key: u64) -> Option<T> {
        let value = self.places.get_mut(key as usize)?.take()?;
        self.free.push(key as usize);
        Some(value)
    }

    pub fn len(&self) -> usize {
        self.places.len() - self.free.len()
    }

    pub fn is_empty(&self) -> bool {
        self.len() == 0
    }
}

#[cfg(test)]
mod tests {
    use super::Slab;

    #[test]
    fn a_value_is_taken_once() {
        let mut slab = Slab::default();
        let (a, b) = (slab.put("a"), slab.put("b"));
        assert_ne!(a, b);
        assert_eq!((slab.take(a), slab.take(a), slab.len()), (Some("a"), None, 1));
        assert_eq!(slab.take(99), None);
        let c = slab.put("c");
        assert_eq!((slab.take(b), slab.take(c)), (Some("b"), Some("c")));
        assert!(slab.is_empty());
    }
}
