//! A vector that is lent out empty, again and again.

pub struct ScratchVec<T>(Vec<T>);

impl<T> Default for ScratchVec<T> {
    fn default() -> Self {
        Self(Vec::new())
    }
}

impl<T> ScratchVec<T> {
    pub fn get(&mut self) -> &mut Vec<T> {
        self.0.clear();
        &mut self.0
    }
}
