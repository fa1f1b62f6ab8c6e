//! The calls of the crate arrayvec that the proved sources make.
use std::mem::MaybeUninit;
use std::ops::{Deref, DerefMut};

pub struct ArrayVec<T, const N: usize> {
    len: u32,
    items: [MaybeUninit<T>; N],
}

impl<T: Copy, const N: usize> Clone for ArrayVec<T, N> {
    fn clone(&self) -> Self {
        *self
    }
}

impl<T: Copy, const N: usize> Copy for ArrayVec<T, N> {}

impl<T, const N: usize> ArrayVec<T, N> {
    #[inline]
    pub fn new() -> Self {
        ArrayVec { len: 0, items: [const { MaybeUninit::uninit() }; N] }
    }

    #[inline]
    pub fn push(&mut self, item: T) {
        self.items[self.len as usize] = MaybeUninit::new(item);
        self.len += 1;
    }

    #[inline]
    pub fn pop(&mut self) -> Option<T> {
        self.len = self.len.checked_sub(1)?;
        Some(unsafe { self.items[self.len as usize].assume_init_read() })
    }

    #[inline]
    pub fn insert(&mut self, at: usize, item: T) {
        self.push(item);
        self.items[at..self.len as usize].rotate_right(1);
    }

    #[inline]
    pub fn truncate(&mut self, count: usize) {
        self.len = self.len.min(count as u32);
    }

    #[inline]
    pub fn len(&self) -> usize {
        self.len as usize
    }

    #[inline]
    pub fn is_empty(&self) -> bool {
        self.len == 0
    }

    #[inline]
    pub fn as_slice(&self) -> &[T] {
        unsafe { std::slice::from_raw_parts(self.items.as_ptr() as *const T, self.len as usize) }
    }
}

impl<T, const N: usize> Deref for ArrayVec<T, N> {
    type Target = [T];

    #[inline]
    fn deref(&self) -> &[T] {
        self.as_slice()
    }
}

impl<T, const N: usize> DerefMut for ArrayVec<T, N> {
    #[inline]
    fn deref_mut(&mut self) -> &mut [T] {
        unsafe { std::slice::from_raw_parts_mut(self.items.as_mut_ptr() as *mut T, self.len as usize) }
    }
}

impl<T: PartialEq, const N: usize> PartialEq for ArrayVec<T, N> {
    fn eq(&self, other: &Self) -> bool {
        self.as_slice() == other.as_slice()
    }
}

impl<T: Eq, const N: usize> Eq for ArrayVec<T, N> {}

impl<T: std::fmt::Debug, const N: usize> std::fmt::Debug for ArrayVec<T, N> {
    fn fmt(&self, out: &mut std::fmt::Formatter<'_>) -> std::fmt::Result {
        self.as_slice().fmt(out)
    }
}
