//! Lists that are lent flush against a page that no call may touch.
//!
//! A lent list lies at the end of its pages, with a guard page right behind its
//! last item, or at their beginning, with one right before its first item
//! (`pages` says what happens there). What is left of the pages on the other
//! side holds guard items: a write there is seen after the call.

use std::cell::Cell;
use std::fmt::Debug;
use std::slice;

use crate::pages::Pages;

/// Where lists lie in their pages.
#[derive(Clone, Copy, Debug, PartialEq, Eq)]
pub enum Side {
    /// The first item lies behind a guard page.
    Begin,
    /// The last item lies before a guard page.
    End,
}

/// Both sides, for what is run once at each.
pub const SIDES: [Side; 2] = [Side::Begin, Side::End];

thread_local! {
    static SIDE: Cell<Side> = const { Cell::new(Side::End) };
}

/// Has the lists that this thread lends from now on lie at a side.
pub fn lend_at(side: Side) {
    SIDE.set(side);
}

/// A list between guards that no call may change.
pub struct Guarded<T> {
    pages: Pages,
    /// Items before the list, and items of the list.
    first: usize,
    count: usize,
    guard: T,
}

impl<T: Copy + PartialEq + Debug> Guarded<T> {
    /// A copy of the list with guards of a value around it.
    pub fn new(list: &[T], guard: T) -> Guarded<T> {
        let pages = Pages::take(size_of_val(list));
        let count = list.len();
        let room = pages.bytes() / size_of::<T>();
        let first = match SIDE.get() {
            Side::Begin => 0,
            Side::End => room - count,
        };
        let mut guarded = Guarded {
            pages,
            first,
            count,
            guard,
        };
        let all = guarded.all_mut();
        all[..first].fill(guard);
        all[first..first + count].copy_from_slice(list);
        all[first + count..].fill(guard);
        guarded
    }

    /// All items of the pages.
    fn all(&self) -> &[T] {
        let room = self.pages.bytes() / size_of::<T>();
        unsafe { slice::from_raw_parts(self.pages.first().cast(), room) }
    }

    /// All items of the pages, to be changed.
    fn all_mut(&mut self) -> &mut [T] {
        let room = self.pages.bytes() / size_of::<T>();
        unsafe { slice::from_raw_parts_mut(self.pages.first().cast(), room) }
    }

    /// How many items are lent.
    pub fn count(&self) -> usize {
        self.count
    }

    /// The lent list.
    pub fn list(&self) -> &[T] {
        &self.all()[self.first..self.first + self.count]
    }

    /// Where the lent list begins.
    pub fn lend(&mut self) -> *mut T {
        self.pages.first().cast::<T>().wrapping_add(self.first)
    }

    /// Panics where a guard has changed.
    pub fn confirm(&self) {
        let (before, from_list) = self.all().split_at(self.first);
        let behind = &from_list[self.count..];
        let same = |part: &[T]| {
            part.iter()
                .fold(true, |all, item| all & (*item == self.guard))
        };
        let stand = |guards: &[T]| guards.chunks(64).all(same);
        let stand = stand(before) && stand(behind);
        assert!(stand, "memory beside the lent list changed");
    }

    /// Panics where a guard or an item is not as it was before the call.
    pub fn confirm_only_read(&self, before: &[T]) {
        self.confirm();
        assert!(self.list() == before, "a list lent to be read has changed");
    }
}

impl<T: Copy + PartialEq + Debug> Clone for Guarded<T> {
    fn clone(&self) -> Guarded<T> {
        Guarded::new(self.list(), self.guard)
    }
}

impl<T> Drop for Guarded<T> {
    fn drop(&mut self) {
        self.pages.put_back();
    }
}
