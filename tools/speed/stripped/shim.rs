//! What the kit's standard library has and Rust's has not: memory that is asked of an allocator, and bodies that are never reached.
use std::marker::PhantomData;
use std::ops::{Index, IndexMut};

#[derive(Debug)]
pub struct AllocError;

pub trait Allocator {}

pub struct Host;

impl Allocator for Host {}

pub struct Cells<T, A>(Vec<T>, PhantomData<A>);

impl<A> Cells<u8, A> {
    pub fn zeros(count: usize) -> Self {
        Cells(vec![0; count], PhantomData)
    }
}

impl<T, A> Cells<T, A> {
    pub fn with_capacity(count: usize) -> Result<Self, AllocError> {
        Ok(Cells(Vec::with_capacity(count), PhantomData))
    }

    pub fn len(&self) -> usize {
        self.0.len()
    }

    pub fn push_reserved(&mut self, item: T) {
        self.0.push(item)
    }

    pub fn as_slice(&self) -> &[T] {
        &self.0
    }

    pub fn as_mut_slice(&mut self) -> &mut [T] {
        &mut self.0
    }
}

impl<T, A> Index<usize> for Cells<T, A> {
    type Output = T;

    fn index(&self, at: usize) -> &T {
        &self.0[at]
    }
}

impl<T, A> IndexMut<usize> for Cells<T, A> {
    fn index_mut(&mut self, at: usize) -> &mut T {
        &mut self.0[at]
    }
}

/// Where the proof says that nothing comes.
#[inline(always)]
pub fn never() -> ! {
    unsafe { std::hint::unreachable_unchecked() }
}

/// A device of bytes failed, of which tables in memory have none.
pub struct DeviceFailed;
