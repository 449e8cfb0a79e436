//! Stand-in for ndarray: a row-major `Array2` with what the originals use of it, and `Zip` of three.
//! A container and nothing else: the only arithmetic is element by element `+` and `-`.
use std::ops::{Add, Index, IndexMut, Sub};

#[derive(Clone, Debug, PartialEq)]
pub struct Array2<T> {
    rows: usize,
    cols: usize,
    elements: Vec<T>,
}

/// The number of elements is not rows times columns.
#[derive(Debug)]
pub struct ShapeError;

impl<T> Array2<T> {
    pub fn from_shape_vec((rows, cols): (usize, usize), elements: Vec<T>) -> Result<Self, ShapeError> {
        match rows.checked_mul(cols) {
            Some(n) if n == elements.len() => Ok(Array2 { rows, cols, elements }),
            _ => Err(ShapeError),
        }
    }

    pub fn zeros((rows, cols): (usize, usize)) -> Self
    where
        T: Clone + Default,
    {
        Array2 { rows, cols, elements: vec![T::default(); rows * cols] }
    }

    pub fn dim(&self) -> (usize, usize) {
        (self.rows, self.cols)
    }

    pub fn nrows(&self) -> usize {
        self.rows
    }

    pub fn ncols(&self) -> usize {
        self.cols
    }

    pub fn len(&self) -> usize {
        self.elements.len()
    }

    pub fn is_empty(&self) -> bool {
        self.elements.is_empty()
    }

    /// Always contiguous here.
    pub fn as_slice(&self) -> Option<&[T]> {
        Some(&self.elements)
    }

    /// Row by row.
    pub fn indexed_iter(&self) -> impl Iterator<Item = ((usize, usize), &T)> {
        (0..self.rows).flat_map(|row| {
            let elements = &self.elements[row * self.cols..(row + 1) * self.cols];
            elements.iter().enumerate().map(move |(col, element)| ((row, col), element))
        })
    }

    fn place(&self, row: usize, col: usize) -> usize {
        assert!(row < self.rows && col < self.cols);
        row * self.cols + col
    }

    fn with<F: Fn(&T, &T) -> T>(&self, other: &Self, f: F) -> Self {
        assert_eq!(self.dim(), other.dim());
        let elements = self.elements.iter().zip(&other.elements).map(|(a, b)| f(a, b)).collect();
        Array2 { rows: self.rows, cols: self.cols, elements }
    }
}

impl<T> Index<(usize, usize)> for Array2<T> {
    type Output = T;
    fn index(&self, (row, col): (usize, usize)) -> &T {
        &self.elements[self.place(row, col)]
    }
}

impl<T> IndexMut<(usize, usize)> for Array2<T> {
    fn index_mut(&mut self, (row, col): (usize, usize)) -> &mut T {
        let place = self.place(row, col);
        &mut self.elements[place]
    }
}

impl<T> Index<[usize; 2]> for Array2<T> {
    type Output = T;
    fn index(&self, [row, col]: [usize; 2]) -> &T {
        &self[(row, col)]
    }
}

impl<T> IndexMut<[usize; 2]> for Array2<T> {
    fn index_mut(&mut self, [row, col]: [usize; 2]) -> &mut T {
        &mut self[(row, col)]
    }
}

impl<'a, T: Copy + Add<Output = T>> Add<&'a Array2<T>> for &'a Array2<T> {
    type Output = Array2<T>;
    fn add(self, other: &Array2<T>) -> Array2<T> {
        self.with(other, |a, b| *a + *b)
    }
}

impl<'a, T: Copy + Sub<Output = T>> Sub<&'a Array2<T>> for &'a Array2<T> {
    type Output = Array2<T>;
    fn sub(self, other: &Array2<T>) -> Array2<T> {
        self.with(other, |a, b| *a - *b)
    }
}

/// Arrays of one shape, walked together: two that are read and one that is written.
pub struct Zip<P>(P);

impl<'a, A> Zip<(&'a Array2<A>,)> {
    pub fn from(a: &'a Array2<A>) -> Self {
        Zip((a,))
    }

    pub fn and<B>(self, b: &'a Array2<B>) -> Zip<(&'a Array2<A>, &'a Array2<B>)> {
        assert_eq!(self.0.0.dim(), b.dim());
        Zip((self.0.0, b))
    }
}

impl<'a, A, B> Zip<(&'a Array2<A>, &'a Array2<B>)> {
    pub fn and<C>(self, c: &'a mut Array2<C>) -> Zip<(&'a Array2<A>, &'a Array2<B>, &'a mut Array2<C>)> {
        assert_eq!(self.0.0.dim(), c.dim());
        Zip((self.0.0, self.0.1, c))
    }
}

impl<A, B, C> Zip<(&Array2<A>, &Array2<B>, &mut Array2<C>)> {
    pub fn for_each<F: FnMut(&A, &B, &mut C)>(self, mut f: F) {
        let (a, b, c) = self.0;
        for ((a, b), c) in a.elements.iter().zip(&b.elements).zip(&mut c.elements) {
            f(a, b, c);
        }
    }
}
