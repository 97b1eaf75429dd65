//! Values with several owners.

use super::alloc::{AllocError, Global};
use super::clone::TryClone;
use ::std::alloc::{Layout, alloc};
use ::std::cell::Cell;
use ::std::fmt;
use ::std::marker::PhantomData;
use ::std::ops::Deref;
use ::std::ptr::NonNull;

// What the owners share. It is freed with the last of them.
struct Shared<T> {
    owners: Cell<usize>,
    value: T,
}

/// An owner of a value that has others. Rust's own ends the process when memory runs out.
pub struct Rc<T> {
    shared: NonNull<Shared<T>>,
    marker: PhantomData<Shared<T>>,
}

impl<T> Rc<T> {
    /// Makes the first owner of a value. If there is no memory, the value is dropped.
    pub fn new(_: Global, value: T) -> Result<Rc<T>, AllocError> {
        let shared = Shared {
            owners: Cell::new(1),
            value,
        };
        // SAFETY: the layout isn't empty, since a `Shared` has a number.
        let memory = unsafe { alloc(Layout::new::<Shared<T>>()) };
        let place = NonNull::new(memory.cast::<Shared<T>>()).ok_or(AllocError)?;
        // SAFETY: the memory is new, and has the layout of what is written.
        unsafe { place.write(shared) };
        Ok(Rc {
            shared: place,
            marker: PhantomData,
        })
    }

    fn shared(&self) -> &Shared<T> {
        // SAFETY: it was written before the first owner was, and is freed after the last one.
        unsafe { self.shared.as_ref() }
    }
}

impl<T> TryClone for Rc<T> {
    fn try_clone(&self) -> Result<Rc<T>, AllocError> {
        let owners = &self.shared().owners;
        owners.set(owners.get().checked_add(1).ok_or(AllocError)?);
        Ok(Rc {
            shared: self.shared,
            marker: PhantomData,
        })
    }
}

impl<T> Drop for Rc<T> {
    fn drop(&mut self) {
        let owners = self.shared().owners.get() - 1;
        self.shared().owners.set(owners);
        if owners == 0 {
            // SAFETY: this was the last owner. A box frees memory of this layout, which the global allocator
            // returned.
            drop(unsafe { Box::from_raw(self.shared.as_ptr()) });
        }
    }
}

impl<T> Deref for Rc<T> {
    type Target = T;

    fn deref(&self) -> &T {
        &self.shared().value
    }
}

impl<T> AsRef<T> for Rc<T> {
    fn as_ref(&self) -> &T {
        self
    }
}

impl<T: fmt::Debug> fmt::Debug for Rc<T> {
    fn fmt(&self, f: &mut fmt::Formatter<'_>) -> fmt::Result {
        (**self).fmt(f)
    }
}
