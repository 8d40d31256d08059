//! A stand-in for the few ndarray names that the original files touch: dense,
//! row-major, owned arrays.
use std::ops::{Index, IndexMut, Range, RangeFull};

#[derive(Clone, Debug, PartialEq)]
pub struct Array2<T> {
    v: Vec<T>,
    r: usize,
    c: usize,
}
#[derive(Clone, Debug, PartialEq)]
pub struct Array1<T> {
    v: Vec<T>,
}
pub struct Axis(pub usize);

impl<T> Array1<T> {
    pub fn from_vec(v: Vec<T>) -> Self {
        Array1 { v }
    }
    pub fn to_vec(&self) -> Vec<T>
    where
        T: Clone,
    {
        self.v.clone()
    }
    pub fn len(&self) -> usize {
        self.v.len()
    }
}
impl<T> Index<usize> for Array1<T> {
    type Output = T;
    fn index(&self, i: usize) -> &T {
        &self.v[i]
    }
}

pub trait Zero {
    fn z() -> Self;
}
impl Zero for f64 {
    fn z() -> f64 {
        0.0
    }
}
impl Zero for usize {
    fn z() -> usize {
        0
    }
}

impl<T> Array2<T> {
    pub fn from_elem((r, c): (usize, usize), x: T) -> Self
    where
        T: Clone,
    {
        Array2 { v: vec![x; r * c], r, c }
    }
    pub fn zeros(d: (usize, usize)) -> Self
    where
        T: Clone + Zero,
    {
        Self::from_elem(d, T::z())
    }
    pub fn from_shape_fn((r, c): (usize, usize), mut f: impl FnMut((usize, usize)) -> T) -> Self {
        let mut v = Vec::with_capacity(r * c);
        for i in 0..r {
            for j in 0..c {
                v.push(f((i, j)));
            }
        }
        Array2 { v, r, c }
    }
    pub fn from_shape_vec((r, c): (usize, usize), v: Vec<T>) -> Result<Self, String> {
        if v.len() == r * c {
            Ok(Array2 { v, r, c })
        } else {
            Err("shape".into())
        }
    }
    pub fn nrows(&self) -> usize {
        self.r
    }
    pub fn ncols(&self) -> usize {
        self.c
    }
    pub fn len(&self) -> usize {
        self.v.len()
    }
    pub fn dim(&self) -> (usize, usize) {
        (self.r, self.c)
    }
    pub fn iter(&self) -> std::slice::Iter<'_, T> {
        self.v.iter()
    }
    pub fn fill(&mut self, x: T)
    where
        T: Clone,
    {
        self.v.fill(x)
    }
    pub fn as_slice_memory_order(&self) -> Option<&[T]> {
        Some(&self.v)
    }
    pub fn column(&self, j: usize) -> Array1<T>
    where
        T: Clone,
    {
        Array1 { v: (0..self.r).map(|i| self[[i, j]].clone()).collect() }
    }
    pub fn zip_mut_with<U>(&mut self, o: &Array2<U>, mut f: impl FnMut(&mut T, &U)) {
        assert_eq!(self.dim(), o.dim());
        for (a, b) in self.v.iter_mut().zip(&o.v) {
            f(a, b)
        }
    }
    pub fn slice(&self, s: Cut) -> View<'_, T> {
        let rows = s.0.unwrap_or(0..self.r);
        let cols = s.1.unwrap_or(0..self.c);
        assert!(rows.end <= self.r && cols.end <= self.c);
        View { a: self, rows, cols }
    }
}
pub struct View<'a, T> {
    a: &'a Array2<T>,
    rows: Range<usize>,
    cols: Range<usize>,
}
impl<'a, T: Clone> View<'a, T> {
    pub fn to_owned(&self) -> Array2<T> {
        let (r, c) = (self.rows.len(), self.cols.len());
        Array2::from_shape_fn((r, c), |(i, j)| self.a[[self.rows.start + i, self.cols.start + j]].clone())
    }
    pub fn select(&self, axis: Axis, idx: &[usize]) -> Array2<T> {
        assert_eq!(axis.0, 0);
        Array2::from_shape_fn((idx.len(), self.cols.len()), |(i, j)| {
            assert!(idx[i] < self.rows.len());
            self.a[[self.rows.start + idx[i], self.cols.start + j]].clone()
        })
    }
}
pub struct Cut(pub Option<Range<usize>>, pub Option<Range<usize>>);
pub trait Part {
    fn part(self) -> Option<Range<usize>>;
}
impl Part for RangeFull {
    fn part(self) -> Option<Range<usize>> {
        None
    }
}
impl Part for Range<usize> {
    fn part(self) -> Option<Range<usize>> {
        Some(self)
    }
}
#[macro_export]
macro_rules! s {
    ($a:expr, $b:expr) => {
        $crate::Cut($crate::Part::part($a), $crate::Part::part($b))
    };
}

impl<T> Index<[usize; 2]> for Array2<T> {
    type Output = T;
    #[inline]
    fn index(&self, [i, j]: [usize; 2]) -> &T {
        assert!(i < self.r && j < self.c);
        &self.v[i * self.c + j]
    }
}
impl<T> IndexMut<[usize; 2]> for Array2<T> {
    #[inline]
    fn index_mut(&mut self, [i, j]: [usize; 2]) -> &mut T {
        assert!(i < self.r && j < self.c);
        &mut self.v[i * self.c + j]
    }
}
impl<T> Index<(usize, usize)> for Array2<T> {
    type Output = T;
    #[inline]
    fn index(&self, (i, j): (usize, usize)) -> &T {
        &self[[i, j]]
    }
}
impl<T> IndexMut<(usize, usize)> for Array2<T> {
    #[inline]
    fn index_mut(&mut self, (i, j): (usize, usize)) -> &mut T {
        &mut self[[i, j]]
    }
}
impl<'a, T> IntoIterator for &'a Array2<T> {
    type Item = &'a T;
    type IntoIter = std::slice::Iter<'a, T>;
    fn into_iter(self) -> Self::IntoIter {
        self.v.iter()
    }
}
impl<'a, T> IntoIterator for &'a mut Array2<T> {
    type Item = &'a mut T;
    type IntoIter = std::slice::IterMut<'a, T>;
    fn into_iter(self) -> Self::IntoIter {
        self.v.iter_mut()
    }
}

pub struct Zip<P>(P);
impl<A: IntoIterator> Zip<(A,)> {
    pub fn from(a: A) -> Self {
        Zip((a,))
    }
    pub fn and<B: IntoIterator>(self, b: B) -> Zip<(A, B)> {
        Zip((self.0 .0, b))
    }
}
impl<A: IntoIterator, B: IntoIterator> Zip<(A, B)> {
    pub fn and<C: IntoIterator>(self, c: C) -> Zip<(A, B, C)> {
        Zip((self.0 .0, self.0 .1, c))
    }
}
impl<A: IntoIterator, B: IntoIterator, C: IntoIterator> Zip<(A, B, C)> {
    pub fn and<D: IntoIterator>(self, d: D) -> Zip<(A, B, C, D)> {
        Zip((self.0 .0, self.0 .1, self.0 .2, d))
    }
    pub fn for_each(self, mut f: impl FnMut(A::Item, B::Item, C::Item)) {
        let (mut b, mut c) = (self.0 .1.into_iter(), self.0 .2.into_iter());
        for a in self.0 .0 {
            f(a, b.next().unwrap(), c.next().unwrap())
        }
    }
}
impl<A: IntoIterator, B: IntoIterator, C: IntoIterator, D: IntoIterator> Zip<(A, B, C, D)> {
    pub fn and<E: IntoIterator>(self, e: E) -> Zip<(A, B, C, D, E)> {
        Zip((self.0 .0, self.0 .1, self.0 .2, self.0 .3, e))
    }
}
impl<A: IntoIterator, B: IntoIterator, C: IntoIterator, D: IntoIterator, E: IntoIterator> Zip<(A, B, C, D, E)> {
    pub fn for_each(self, mut f: impl FnMut(A::Item, B::Item, C::Item, D::Item, E::Item)) {
        let (mut b, mut c, mut d, mut e) = (self.0 .1.into_iter(), self.0 .2.into_iter(), self.0 .3.into_iter(), self.0 .4.into_iter());
        for a in self.0 .0 {
            f(a, b.next().unwrap(), c.next().unwrap(), d.next().unwrap(), e.next().unwrap())
        }
    }
}
