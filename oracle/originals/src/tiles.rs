//! autoscale.rs once more, over a `Vec` that shows the 64 lists of tile sums when `clahe_equalize_normalized` drops them.
//! They are local to that function, so nothing else can show them.
use std::any::Any;
use std::cell::RefCell;
use std::ops::{Deref, DerefMut};

thread_local! {
    static SUMS: RefCell<std::vec::Vec<f64>> = const { RefCell::new(std::vec::Vec::new()) };
}

/// The standard `Vec`; a list of lists of f64 is kept when dropped.
pub struct Vec<T: 'static>(std::vec::Vec<T>);

impl<T: 'static> Drop for Vec<T> {
    fn drop(&mut self) {
        if let Some(tiles) = (self as &dyn Any).downcast_ref::<Vec<Vec<f64>>>() {
            let flat = tiles.iter().flat_map(|sums| sums.iter().copied()).collect();
            SUMS.with(|kept| kept.replace(flat));
        }
    }
}

impl<T: 'static> Vec<T> {
    fn new() -> Self {
        Vec(std::vec::Vec::new())
    }

    fn with_capacity(capacity: usize) -> Self {
        Vec(std::vec::Vec::with_capacity(capacity))
    }
}

impl<T: 'static> Deref for Vec<T> {
    type Target = std::vec::Vec<T>;
    fn deref(&self) -> &Self::Target {
        &self.0
    }
}

impl<T: 'static> DerefMut for Vec<T> {
    fn deref_mut(&mut self) -> &mut Self::Target {
        &mut self.0
    }
}

impl<T: 'static> FromIterator<T> for Vec<T> {
    fn from_iter<I: IntoIterator<Item = T>>(elements: I) -> Self {
        Vec(elements.into_iter().collect())
    }
}

impl<'a, T: 'static> IntoIterator for &'a mut Vec<T> {
    type Item = &'a mut T;
    type IntoIter = std::slice::IterMut<'a, T>;
    fn into_iter(self) -> Self::IntoIter {
        self.0.iter_mut()
    }
}

macro_rules! vec {
    ($($elements:tt)*) => { Vec(std::vec![$($elements)*]) };
}

include!(env!("ORIGINAL_AUTOSCALE"));

/// The equalised pixels, and 64 tiles of 256 sums, tile rows first.
pub fn clahe_sums(norm: &Array2<f64>, valid_mask: &[bool]) -> (Array2<f64>, std::vec::Vec<f64>) {
    let equalised = clahe_equalize_normalized(norm, valid_mask, 8, 8, 2.0, 256);
    (equalised, SUMS.with(|kept| kept.take()))
}
