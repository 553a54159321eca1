//! A persistent chain: the newest item first, older ones shared.
//!
//! Environments, location sets and the checker's scopes are chains. To keep one
//! costs a reference count; to add to one leaves every other holder as it was.

use std::rc::Rc;

pub struct Chain<T>(Option<Rc<Link<T>>>);

struct Link<T> {
    item: T,
    older: Chain<T>,
}

impl<T> Chain<T> {
    pub fn empty() -> Chain<T> {
        Chain(None)
    }

    /// This chain with one newer item.
    pub fn with(&self, item: T) -> Chain<T> {
        Chain(Some(Rc::new(Link { item, older: self.clone() })))
    }

    /// The items, newest first.
    pub fn iter(&self) -> Items<'_, T> {
        Items(self)
    }

    /// Whether both are the very same chain, sharing every link.
    pub fn same(&self, other: &Chain<T>) -> bool {
        match (&self.0, &other.0) {
            (None, None) => true,
            (Some(one), Some(another)) => Rc::ptr_eq(one, another),
            _ => false,
        }
    }
}

impl<T: Clone> Chain<T> {
    /// This chain with all items of another added, whose order is kept.
    pub fn joined(&self, newer: &Chain<T>) -> Chain<T> {
        let items: Vec<&T> = newer.iter().collect();
        items.into_iter().rev().fold(self.clone(), |chain, item| chain.with(item.clone()))
    }
}

impl<T> Clone for Chain<T> {
    fn clone(&self) -> Chain<T> {
        Chain(self.0.clone())
    }
}

impl<T: std::fmt::Debug> std::fmt::Debug for Chain<T> {
    fn fmt(&self, formatter: &mut std::fmt::Formatter<'_>) -> std::fmt::Result {
        formatter.debug_list().entries(self.iter()).finish()
    }
}

pub struct Items<'c, T>(&'c Chain<T>);

impl<'c, T> Iterator for Items<'c, T> {
    type Item = &'c T;

    fn next(&mut self) -> Option<&'c T> {
        let link = self.0 .0.as_ref()?;
        self.0 = &link.older;
        Some(&link.item)
    }
}
