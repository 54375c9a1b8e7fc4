//! Stand-in: a guard that keeps a page pinned while it lives.

use super::pager::PageRef;
use std::ops::Deref;

#[derive(Debug)]
pub struct PinGuard(PageRef);

impl PinGuard {
    pub fn new(page: PageRef) -> Self {
        page.pin();
        Self(page)
    }
}

impl Drop for PinGuard {
    fn drop(&mut self) {
        self.0.unpin();
    }
}

impl Deref for PinGuard {
    type Target = PageRef;

    fn deref(&self) -> &PageRef {
        &self.0
    }
}
