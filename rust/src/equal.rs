//! What is read is equal by what it holds, wherever it stands. A lent buffer is never compared.

use crate::{Entries, Entry, Features, Payloads};

impl PartialEq for Entry<'_> {
    fn eq(&self, other: &Self) -> bool {
        let strings = |entry: &Self| (entry.agent(), entry.name());
        strings(self) == strings(other)
            && self.version() == other.version()
            && self.address() == other.address()
            && self.features() == other.features()
    }
}

impl Eq for Entry<'_> {}

/// Equal if they still have the same to give.
impl PartialEq for Features<'_> {
    fn eq(&self, other: &Self) -> bool {
        same(self, other)
    }
}

impl Eq for Features<'_> {}

/// Equal if they still have the same to give.
impl PartialEq for Entries<'_> {
    fn eq(&self, other: &Self) -> bool {
        same(self, other)
    }
}

impl Eq for Entries<'_> {}

/// Equal if they still have the same to give.
impl PartialEq for Payloads<'_> {
    fn eq(&self, other: &Self) -> bool {
        same(self, other)
    }
}

impl Eq for Payloads<'_> {}

fn same<I>(one: &I, other: &I) -> bool
where
    I: ExactSizeIterator<Item: PartialEq> + Clone,
{
    one.len() == other.len() && one.clone().eq(other.clone())
}
