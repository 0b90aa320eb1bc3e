//! Stand-in for `faer` (not to be had here): the names that the original
//! matrix.rs and hydraulicsolver.rs use, over a dense LL^T.
//!
//! Feature `no-reorder`: the AMD ordering is the identity (document 01, item 7).
//! Without it the ordering is a plain minimum-degree one (exact external
//! degrees, ties to the lowest number), standing in for faer's AMD.

use std::fmt;
use std::ops::{Index, IndexMut};

#[derive(Clone, Copy, Debug, PartialEq, Eq)]
pub enum Side {
    Lower,
    Upper,
}

#[derive(Clone, Debug)]
pub struct FaerError(pub &'static str);

impl fmt::Display for FaerError {
    fn fmt(&self, f: &mut fmt::Formatter<'_>) -> fmt::Result {
        f.write_str(self.0)
    }
}

/// Dense matrix, row by row.
#[derive(Clone, Debug)]
pub struct Mat<T> {
    nrows: usize,
    ncols: usize,
    data: Vec<T>,
}

impl<T> Mat<T> {
    pub fn from_fn(nrows: usize, ncols: usize, mut f: impl FnMut(usize, usize) -> T) -> Self {
        let mut data = Vec::with_capacity(nrows * ncols);
        for r in 0..nrows {
            for c in 0..ncols {
                data.push(f(r, c));
            }
        }
        Mat { nrows, ncols, data }
    }
    pub fn nrows(&self) -> usize {
        self.nrows
    }
    pub fn ncols(&self) -> usize {
        self.ncols
    }
}

impl<T> Index<(usize, usize)> for Mat<T> {
    type Output = T;
    fn index(&self, (r, c): (usize, usize)) -> &T {
        assert!(r < self.nrows && c < self.ncols);
        &self.data[r * self.ncols + c]
    }
}

impl<T> IndexMut<(usize, usize)> for Mat<T> {
    fn index_mut(&mut self, (r, c): (usize, usize)) -> &mut T {
        assert!(r < self.nrows && c < self.ncols);
        &mut self.data[r * self.ncols + c]
    }
}

pub mod prelude {
    pub use crate::Mat;
    pub use crate::linalg::solvers::Solve;
}

pub mod dyn_stack {
    #[derive(Clone, Copy)]
    pub struct StackReq;
    pub struct MemStack(());
    pub struct MemBuffer(MemStack);
    impl MemBuffer {
        pub fn new(_: StackReq) -> Self {
            MemBuffer(MemStack(()))
        }
    }
    impl MemStack {
        #[allow(clippy::new_ret_no_self)]
        pub fn new(buffer: &mut MemBuffer) -> &mut MemStack {
            &mut buffer.0
        }
    }
}

pub mod linalg {
    pub mod solvers {
        use crate::Mat;
        pub trait Solve {
            fn solve(&self, rhs: &Mat<f64>) -> Mat<f64>;
        }
    }
    pub mod cholesky {
        pub mod llt {
            pub mod factor {
                use std::fmt;
                #[derive(Clone, Copy, Debug, PartialEq, Eq)]
                pub enum LltError {
                    /// The original text reads the index as the column plus 1.
                    NonPositivePivot { index: usize },
                }
                impl fmt::Display for LltError {
                    fn fmt(&self, f: &mut fmt::Formatter<'_>) -> fmt::Result {
                        fmt::Debug::fmt(self, f)
                    }
                }
            }
        }
    }
}

/// The systems as they come to be solved, kept while that is asked for.
pub mod told {
    use std::cell::RefCell;

    pub struct System {
        pub n: usize,
        /// n by n, row by row; what stands above the diagonal says nothing
        pub lower: Vec<f64>,
        /// empty where the factorization stopped
        pub right: Vec<f64>,
    }

    thread_local! {
        static KEPT: RefCell<Option<Vec<System>>> = const { RefCell::new(None) };
    }

    pub fn start() {
        KEPT.with(|kept| *kept.borrow_mut() = Some(vec![]));
    }

    pub fn take() -> Vec<System> {
        KEPT.with(|kept| kept.borrow_mut().take().unwrap_or_default())
    }

    pub(crate) fn matrix(lower: &[f64], n: usize) {
        KEPT.with(|kept| {
            if let Some(systems) = &mut *kept.borrow_mut() {
                let (lower, right) = (lower.to_vec(), vec![]);
                systems.push(System { n, lower, right });
            }
        });
    }

    pub(crate) fn right(b: &[f64]) {
        KEPT.with(|kept| {
            if let Some(last) = kept.borrow_mut().as_mut().and_then(|s| s.last_mut()) {
                last.right = b.to_vec();
            }
        });
    }
}

/// The dense LL^T of document 01, item 7.
pub mod dense {
    /// Factorises in place the lower triangle in `a` (n by n, row by row).
    /// Err: the first column whose pivot is not above zero.
    pub fn factorize(a: &mut [f64], n: usize) -> Result<(), usize> {
        for j in 0..n {
            // the pivot: products subtracted one by one, ascending
            let mut pivot = a[j * n + j];
            for k in 0..j {
                pivot -= a[j * n + k] * a[j * n + k];
            }
            // a NaN pivot is not above zero either
            let above = pivot > 0.0;
            if !above {
                return Err(j);
            }
            let root = pivot.sqrt();
            a[j * n + j] = root;
            for i in j + 1..n {
                let mut s = a[i * n + j];
                for k in 0..j {
                    s -= a[i * n + k] * a[j * n + k];
                }
                a[i * n + j] = s / root;
            }
        }
        Ok(())
    }

    /// Forward and back substitution in place.
    pub fn substitute(l: &[f64], n: usize, b: &mut [f64]) {
        for i in 0..n {
            let mut s = b[i];
            for k in 0..i {
                s -= l[i * n + k] * b[k];
            }
            b[i] = s / l[i * n + i];
        }
        for i in (0..n).rev() {
            let mut s = b[i];
            for k in i + 1..n {
                s -= l[k * n + i] * b[k];
            }
            b[i] = s / l[i * n + i];
        }
    }
}

pub mod sparse {
    use crate::FaerError;

    #[derive(Clone, Copy, Debug)]
    pub struct Triplet<R, C, T> {
        pub row: R,
        pub col: C,
        pub val: T,
    }
    impl<R, C, T> Triplet<R, C, T> {
        pub fn new(row: R, col: C, val: T) -> Self {
            Triplet { row, col, val }
        }
    }

    #[derive(Clone, Debug)]
    pub struct SymbolicSparseColMat<I> {
        n: usize,
        col_ptr: Vec<I>,
        row_idx: Vec<I>,
    }

    #[derive(Debug)]
    pub struct SymbolicSparseColMatRef<'a, I> {
        n: usize,
        col_ptr: &'a [I],
        row_idx: &'a [I],
    }
    impl<I> Clone for SymbolicSparseColMatRef<'_, I> {
        fn clone(&self) -> Self {
            *self
        }
    }
    impl<I> Copy for SymbolicSparseColMatRef<'_, I> {}

    impl<I> SymbolicSparseColMat<I> {
        #[allow(clippy::should_implement_trait)]
        pub fn as_ref(&self) -> SymbolicSparseColMatRef<'_, I> {
            SymbolicSparseColMatRef {
                n: self.n,
                col_ptr: &self.col_ptr,
                row_idx: &self.row_idx,
            }
        }
    }

    impl<'a, I: Clone> SymbolicSparseColMatRef<'a, I> {
        pub fn ncols(self) -> usize {
            self.n
        }
        pub fn col_ptr(self) -> &'a [I] {
            self.col_ptr
        }
        pub fn row_idx(self) -> &'a [I] {
            self.row_idx
        }
        pub fn compute_nnz(self) -> usize {
            self.row_idx.len()
        }
        #[allow(clippy::wrong_self_convention)]
        pub fn to_owned(&self) -> Result<SymbolicSparseColMat<I>, FaerError> {
            Ok(SymbolicSparseColMat {
                n: self.n,
                col_ptr: self.col_ptr.to_vec(),
                row_idx: self.row_idx.to_vec(),
            })
        }
    }

    #[derive(Clone, Debug)]
    pub struct SparseColMat<I, T> {
        symbolic: SymbolicSparseColMat<I>,
        val: Vec<T>,
    }

    #[derive(Clone, Copy, Debug)]
    pub struct SparseColMatRef<'a, I, T> {
        pub(crate) symbolic: SymbolicSparseColMatRef<'a, I>,
        pub(crate) val: &'a [T],
    }

    impl<I, T> SparseColMat<I, T> {
        pub fn new(symbolic: SymbolicSparseColMat<I>, val: Vec<T>) -> Self {
            assert_eq!(symbolic.row_idx.len(), val.len());
            SparseColMat { symbolic, val }
        }
        pub fn symbolic(&self) -> SymbolicSparseColMatRef<'_, I> {
            self.symbolic.as_ref()
        }
        pub fn val_mut(&mut self) -> &mut [T] {
            &mut self.val
        }
        #[allow(clippy::should_implement_trait)]
        pub fn as_ref(&self) -> SparseColMatRef<'_, I, T> {
            SparseColMatRef {
                symbolic: self.symbolic.as_ref(),
                val: &self.val,
            }
        }
    }

    impl SparseColMat<usize, f64> {
        /// Columns ascending, rows ascending within a column, equal places added.
        pub fn try_new_from_triplets(
            nrows: usize,
            ncols: usize,
            entries: &[Triplet<usize, usize, f64>],
        ) -> Result<Self, FaerError> {
            assert_eq!(nrows, ncols);
            let mut sorted = entries.to_vec();
            sorted.sort_by_key(|t| (t.col, t.row)); // stable
            let mut col_ptr = vec![0usize; ncols + 1];
            let mut row_idx: Vec<usize> = Vec::new();
            let mut val: Vec<f64> = Vec::new();
            let mut last = None;
            for t in sorted {
                if t.row >= nrows || t.col >= ncols {
                    return Err(FaerError("index out of bounds"));
                }
                if last == Some((t.col, t.row)) {
                    *val.last_mut().unwrap() += t.val;
                } else {
                    row_idx.push(t.row);
                    val.push(t.val);
                    col_ptr[t.col + 1] += 1;
                    last = Some((t.col, t.row));
                }
            }
            for c in 0..ncols {
                col_ptr[c + 1] += col_ptr[c];
            }
            Ok(SparseColMat {
                symbolic: SymbolicSparseColMat {
                    n: ncols,
                    col_ptr,
                    row_idx,
                },
                val,
            })
        }
    }

    pub mod linalg {
        use crate::FaerError;
        use std::fmt;

        #[derive(Clone, Debug)]
        pub enum LltError {
            Generic(FaerError),
            Numeric(crate::linalg::cholesky::llt::factor::LltError),
        }
        impl fmt::Display for LltError {
            fn fmt(&self, f: &mut fmt::Formatter<'_>) -> fmt::Result {
                fmt::Debug::fmt(self, f)
            }
        }

        pub mod amd {
            use crate::FaerError;
            use crate::dyn_stack::{MemStack, StackReq};
            use crate::sparse::SymbolicSparseColMatRef;

            #[derive(Clone, Copy, Default)]
            pub struct Control(());

            pub fn order_maybe_unsorted_scratch<I>(_n: usize, _nnz: usize) -> StackReq {
                StackReq
            }

            pub fn order_maybe_unsorted(
                perm: &mut [usize],
                perm_inv: &mut [usize],
                a: SymbolicSparseColMatRef<'_, usize>,
                _control: Control,
                _stack: &mut MemStack,
            ) -> Result<(), FaerError> {
                let order = ordering(a);
                perm.copy_from_slice(&order);
                for (new, &old) in order.iter().enumerate() {
                    perm_inv[old] = new;
                }
                Ok(())
            }

            /// order[new place] = old place
            #[cfg(feature = "no-reorder")]
            pub(crate) fn ordering(a: SymbolicSparseColMatRef<'_, usize>) -> Vec<usize> {
                (0..a.ncols()).collect()
            }

            /// order[new place] = old place; minimum degree, ties to the lowest
            #[cfg(not(feature = "no-reorder"))]
            pub(crate) fn ordering(a: SymbolicSparseColMatRef<'_, usize>) -> Vec<usize> {
                let n = a.ncols();
                let mut adjacent = vec![vec![false; n]; n];
                for (c, ends) in a.col_ptr().windows(2).enumerate() {
                    for &r in a.row_idx()[ends[0]..ends[1]].iter().filter(|&&r| r != c) {
                        adjacent[r][c] = true;
                        adjacent[c][r] = true;
                    }
                }
                let mut gone = vec![false; n];
                let mut order = Vec::with_capacity(n);
                for _ in 0..n {
                    let mut best = None;
                    for v in 0..n {
                        if gone[v] {
                            continue;
                        }
                        let degree = adjacent[v].iter().filter(|&&x| x).count();
                        if best.is_none_or(|(d, _)| degree < d) {
                            best = Some((degree, v));
                        }
                    }
                    let (_, v) = best.unwrap();
                    let around: Vec<usize> = (0..n).filter(|&w| adjacent[v][w]).collect();
                    for &x in &around {
                        adjacent[x][v] = false;
                        adjacent[v][x] = false;
                        for &y in &around {
                            if x != y {
                                adjacent[x][y] = true;
                            }
                        }
                    }
                    gone[v] = true;
                    order.push(v);
                }
                order
            }
        }

        pub mod solvers {
            use super::{LltError, amd};
            use crate::linalg::cholesky::llt::factor::LltError as Numeric;
            use crate::linalg::solvers::Solve;
            use crate::sparse::{SparseColMatRef, SymbolicSparseColMatRef};
            use crate::{FaerError, Mat, Side, dense, told};
            use std::marker::PhantomData;
            use std::sync::Arc;

            /// The real one is cheap to clone (reference counted); so is this.
            #[derive(Clone, Debug)]
            pub struct SymbolicLlt<I> {
                /// perm[new] = old, and its inverse
                perm: Arc<(Vec<usize>, Vec<usize>)>,
                _index: PhantomData<I>,
            }

            impl SymbolicLlt<usize> {
                pub fn try_new(
                    a: SymbolicSparseColMatRef<'_, usize>,
                    side: Side,
                ) -> Result<Self, FaerError> {
                    assert_eq!(side, Side::Lower);
                    let forward = amd::ordering(a);
                    let mut inverse = vec![0; forward.len()];
                    for (new, &old) in forward.iter().enumerate() {
                        inverse[old] = new;
                    }
                    Ok(SymbolicLlt {
                        perm: Arc::new((forward, inverse)),
                        _index: PhantomData,
                    })
                }
            }

            #[derive(Clone, Debug)]
            pub struct Llt<I, T> {
                symbolic: SymbolicLlt<I>,
                n: usize,
                l: Vec<T>,
            }

            impl Llt<usize, f64> {
                pub fn try_new_with_symbolic(
                    symbolic: SymbolicLlt<usize>,
                    a: SparseColMatRef<'_, usize, f64>,
                    side: Side,
                ) -> Result<Self, LltError> {
                    assert_eq!(side, Side::Lower);
                    let n = a.symbolic.ncols();
                    let inverse = &symbolic.perm.1;
                    let mut l = vec![0.0; n * n];
                    for c in 0..n {
                        let from = a.symbolic.col_ptr()[c];
                        let to = a.symbolic.col_ptr()[c + 1];
                        for p in from..to {
                            let r = a.symbolic.row_idx()[p];
                            let (x, y) = (inverse[r], inverse[c]);
                            l[x.max(y) * n + x.min(y)] = a.val[p];
                        }
                    }
                    told::matrix(&l, n);
                    match dense::factorize(&mut l, n) {
                        Ok(()) => Ok(Llt { symbolic, n, l }),
                        Err(column) => Err(LltError::Numeric(Numeric::NonPositivePivot {
                            index: column + 1,
                        })),
                    }
                }
            }

            impl Solve for Llt<usize, f64> {
                fn solve(&self, rhs: &Mat<f64>) -> Mat<f64> {
                    assert!(rhs.nrows() == self.n && rhs.ncols() == 1);
                    let (forward, inverse) = &*self.symbolic.perm;
                    let mut b: Vec<f64> = forward.iter().map(|&old| rhs[(old, 0)]).collect();
                    told::right(&b);
                    dense::substitute(&self.l, self.n, &mut b);
                    Mat::from_fn(self.n, 1, |r, _| b[inverse[r]])
                }
            }
        }
    }
}

#[cfg(test)]
mod tests {
    use super::dense::{factorize, substitute};

    #[test]
    fn two_by_two() {
        // [4 2; 2 10] = L L^T with L = [2 0; 1 3]
        let mut a = [4.0, 0.0, 2.0, 10.0];
        assert_eq!(factorize(&mut a, 2), Ok(()));
        assert_eq!(a, [2.0, 0.0, 1.0, 3.0]);
        let mut b = [8.0, 22.0];
        substitute(&a, 2, &mut b);
        assert_eq!(b, [1.0, 2.0]);
    }

    #[test]
    fn the_first_pivot_not_above_zero() {
        assert_eq!(factorize(&mut [1.0, 0.0, 1.0, 1.0], 2), Err(1));
        assert_eq!(factorize(&mut [0.0, 0.0, 1.0, 1.0], 2), Err(0));
        assert_eq!(factorize(&mut [f64::NAN], 1), Err(0));
    }
}
