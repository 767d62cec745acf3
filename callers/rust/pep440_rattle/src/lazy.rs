//! A value behind one pointer, made when it is first asked for, and shared by clones.
#![allow(unsafe_code)]

use alloc::sync::Arc;
use core::marker::PhantomData;
use core::ptr;
use core::sync::atomic::{AtomicPtr, Ordering};

/// Null, or the pointer of an [`Arc`] that this owns. One that is not null never changes.
pub(crate) struct Lazy<T>(AtomicPtr<T>, PhantomData<Arc<T>>);

impl<T> Lazy<T> {
    pub(crate) const fn new() -> Lazy<T> {
        Lazy(AtomicPtr::new(ptr::null_mut()), PhantomData)
    }

    #[inline]
    pub(crate) fn get(&self) -> Option<&T> {
        // SAFETY: a pointer that is not null is that of an `Arc`, which is dropped with `self` at the earliest.
        unsafe { self.0.load(Ordering::Acquire).as_ref() }
    }

    #[inline]
    pub(crate) fn get_or_init(&self, make: impl FnOnce() -> T) -> &T {
        match self.get() {
            Some(value) => value,
            None => self.init(make()),
        }
    }

    /// Keeps the value, or where another thread was faster its one.
    fn init(&self, value: T) -> &T {
        let made = Arc::into_raw(Arc::new(value)).cast_mut();
        let kept = match self.0.compare_exchange(ptr::null_mut(), made, Ordering::AcqRel, Ordering::Acquire) {
            Ok(_) => made,
            Err(other) => {
                // SAFETY: the pointer is that of the `Arc` above, and nobody else has it.
                drop(unsafe { Arc::from_raw(made) });
                other
            }
        };
        // SAFETY: as in `get`.
        unsafe { &*kept }
    }

    /// The value, taken out.
    pub(crate) fn take(&mut self) -> Option<Arc<T>> {
        let value = core::mem::replace(self.0.get_mut(), ptr::null_mut());
        // SAFETY: a pointer that is not null is that of an `Arc`, whose owner the result is now.
        (!value.is_null()).then(|| unsafe { Arc::from_raw(value) })
    }
}

impl<T> From<T> for Lazy<T> {
    fn from(value: T) -> Lazy<T> {
        Lazy(AtomicPtr::new(Arc::into_raw(Arc::new(value)).cast_mut()), PhantomData)
    }
}

impl<T> Clone for Lazy<T> {
    #[inline]
    fn clone(&self) -> Lazy<T> {
        let value = self.0.load(Ordering::Acquire);
        if !value.is_null() {
            // SAFETY: the pointer is that of an `Arc` that `self` owns; the clone owns one more.
            unsafe { Arc::increment_strong_count(value) };
        }
        Lazy(AtomicPtr::new(value), PhantomData)
    }
}

impl<T> Drop for Lazy<T> {
    #[inline]
    fn drop(&mut self) {
        if !self.0.get_mut().is_null() {
            drop(self.take());
        }
    }
}
