//! Stands for oxc_allocator: boxes and lists on the heap instead of in an arena.
use std::marker::PhantomData;
use std::ops::{Deref, DerefMut};

/// ArenaBox: an owned node.
#[derive(Debug)]
pub struct ArenaBox<'a, T>(Box<T>, PhantomData<&'a ()>);

impl<T> ArenaBox<'_, T> {
    /// ArenaBox::new_in, without an arena.
    pub fn of(node: T) -> Self {
        ArenaBox(Box::new(node), PhantomData)
    }

    /// ArenaBox::unbox: the node itself.
    pub fn unbox(self) -> T {
        *self.0
    }
}

impl<T> Deref for ArenaBox<'_, T> {
    type Target = T;
    fn deref(&self) -> &T {
        &self.0
    }
}

/// ArenaVec: an owned list.
#[derive(Debug)]
pub struct ArenaVec<'a, T>(Vec<T>, PhantomData<&'a ()>);

impl<T> ArenaVec<'_, T> {
    /// ArenaVec::from_iter_in, without an arena.
    pub fn of(list: Vec<T>) -> Self {
        ArenaVec(list, PhantomData)
    }

    /// ArenaVec::with_capacity_in. `G` is whatever can lend an arena.
    pub fn with_capacity_in<G>(capacity: usize, _: &G) -> Self {
        Self::of(Vec::with_capacity(capacity))
    }
}

impl<T> Deref for ArenaVec<'_, T> {
    type Target = Vec<T>;
    fn deref(&self) -> &Vec<T> {
        &self.0
    }
}

impl<T> DerefMut for ArenaVec<'_, T> {
    fn deref_mut(&mut self) -> &mut Vec<T> {
        &mut self.0
    }
}

impl<T> IntoIterator for ArenaVec<'_, T> {
    type Item = T;
    type IntoIter = std::vec::IntoIter<T>;
    fn into_iter(self) -> Self::IntoIter {
        self.0.into_iter()
    }
}
