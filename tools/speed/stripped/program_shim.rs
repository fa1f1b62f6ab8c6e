//! The kit's containers as far as the crates of the programs call them, and memory that is asked of an allocator.
pub use crate::arrayvec::ArrayVec;
use std::io;
use std::marker::PhantomData;
use std::ops::{Deref, DerefMut};

#[derive(Clone, Copy, Debug, PartialEq, Eq)]
pub struct AllocError;

pub struct AllocFailed<T>(pub T);

impl<T> From<AllocFailed<T>> for AllocError {
    fn from(_failed: AllocFailed<T>) -> AllocError {
        AllocError
    }
}

impl From<AllocError> for io::Error {
    fn from(_error: AllocError) -> io::Error {
        io::ErrorKind::OutOfMemory.into()
    }
}

impl From<AllocFailed<u8>> for io::Error {
    fn from(_failed: AllocFailed<u8>) -> io::Error {
        io::ErrorKind::OutOfMemory.into()
    }
}

pub trait Allocator {}

#[derive(Clone, Copy)]
pub struct Global;

impl Allocator for Global {}

/// Where the proof says that nothing comes.
#[inline(always)]
pub fn never() -> ! {
    unsafe { std::hint::unreachable_unchecked() }
}

type List<T> = std::vec::Vec<T>;

pub struct Vec<T, A>(List<T>, PhantomData<A>);

impl<T, A> Vec<T, A> {
    pub fn new(_alloc: A) -> Self {
        Vec(List::new(), PhantomData)
    }

    pub fn with_capacity(_alloc: A, count: usize) -> Result<Self, AllocError> {
        Ok(Vec(List::with_capacity(count), PhantomData))
    }

    pub fn from_slice(_alloc: A, items: &[T]) -> Result<Self, AllocError>
    where
        T: Clone,
    {
        Ok(Vec(items.to_vec(), PhantomData))
    }

    pub fn push(&mut self, item: T) -> Result<(), AllocFailed<T>> {
        self.0.push(item);
        Ok(())
    }

    pub fn push_reserved(&mut self, item: T) {
        self.0.push(item)
    }

    pub fn reserve_exact(&mut self, count: usize) -> Result<(), AllocError> {
        self.0.reserve_exact(count);
        Ok(())
    }

    pub fn extend_from_slice(&mut self, items: &[T]) -> Result<(), AllocError>
    where
        T: Clone,
    {
        self.0.extend_from_slice(items);
        Ok(())
    }
}

impl<A> std::io::Write for Vec<u8, A> {
    fn write(&mut self, bytes: &[u8]) -> std::io::Result<usize> {
        self.0.extend_from_slice(bytes);
        Ok(bytes.len())
    }

    fn flush(&mut self) -> std::io::Result<()> {
        Ok(())
    }
}

impl<T, A> Deref for Vec<T, A> {
    type Target = List<T>;

    fn deref(&self) -> &List<T> {
        &self.0
    }
}

impl<T, A> DerefMut for Vec<T, A> {
    fn deref_mut(&mut self) -> &mut List<T> {
        &mut self.0
    }
}

/// The first N places in the value itself.
pub struct SmallVec<T, const N: usize, A>(ArrayVec<T, N>, List<T>, PhantomData<A>);

impl<T: Copy, const N: usize, A> SmallVec<T, N, A> {
    pub fn new(_alloc: A) -> Self {
        SmallVec(ArrayVec::new(), List::new(), PhantomData)
    }

    pub fn push(&mut self, item: T) -> Result<(), AllocError> {
        if self.1.is_empty() && self.0.len() < N {
            self.0.push(item);
        } else {
            if self.1.is_empty() {
                self.1.extend_from_slice(self.0.as_slice());
            }
            self.1.push(item);
        }
        Ok(())
    }

    pub fn as_slice(&self) -> &[T] {
        if self.1.is_empty() { self.0.as_slice() } else { &self.1 }
    }
}

#[derive(Clone, Copy, Debug, PartialEq, Eq)]
pub struct ArrayString<const N: usize>(ArrayVec<u8, N>);

impl<const N: usize> ArrayString<N> {
    pub fn new() -> Self {
        ArrayString(ArrayVec::new())
    }

    pub fn from(text: &str) -> Result<Self, ()> {
        if text.len() > N {
            return Err(());
        }
        let mut string = Self::new();
        string.push_str(text);
        Ok(string)
    }

    pub fn push(&mut self, letter: char) {
        self.0.push(letter as u8)
    }

    pub fn push_str(&mut self, text: &str) {
        for byte in text.bytes() {
            self.0.push(byte);
        }
    }

    pub fn as_str(&self) -> &str {
        unsafe { std::str::from_utf8_unchecked(self.0.as_slice()) }
    }
}

/// A number in decimal digits.
pub struct Buffer([u8; 20]);

impl Buffer {
    pub fn new() -> Self {
        Buffer([0; 20])
    }

    pub fn format<T: TryInto<u64>>(&mut self, number: T) -> &str {
        let mut left = number.try_into().unwrap_or(0);
        let mut at = self.0.len();
        loop {
            at -= 1;
            self.0[at] = b'0' + (left % 10) as u8;
            left /= 10;
            if left == 0 {
                break;
            }
        }
        unsafe { std::str::from_utf8_unchecked(&self.0[at..]) }
    }
}

pub struct LittleEndian;

impl LittleEndian {
    pub fn read_u16(bytes: &[u8]) -> u16 {
        u16::from_le_bytes([bytes[0], bytes[1]])
    }

    pub fn write_u16(bytes: &mut [u8], number: u16) {
        bytes[..2].copy_from_slice(&number.to_le_bytes())
    }

    pub fn write_u32(bytes: &mut [u8], number: u32) {
        bytes[..4].copy_from_slice(&number.to_le_bytes())
    }
}
