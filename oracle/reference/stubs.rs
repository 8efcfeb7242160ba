// The outside types that reduction.rs names, so that it compiles unchanged and without packages.
// Only kron_reduce, ptdf_matrix and dc_solve would run these bodies, and none of them is called.

pub mod num_complex {
    #[derive(Clone, Copy)]
    pub struct Complex64;

    impl Complex64 {
        pub fn new(_re: f64, _im: f64) -> Self {
            unimplemented!()
        }
    }
}

pub mod sprs {
    use std::marker::PhantomData;

    pub struct CsMat<T>(PhantomData<T>);
    pub struct CsVec<T>(PhantomData<T>);

    impl<T> CsMat<T> {
        pub fn rows(&self) -> usize {
            unimplemented!()
        }
        pub fn cols(&self) -> usize {
            unimplemented!()
        }
        pub fn outer_view(&self, _row: usize) -> Option<CsVec<T>> {
            unimplemented!()
        }
    }

    impl<T> CsVec<T> {
        pub fn indices(&self) -> &[usize] {
            unimplemented!()
        }
        pub fn data(&self) -> &[T] {
            unimplemented!()
        }
    }
}

pub mod nalgebra {
    use std::marker::PhantomData;
    use std::ops::{Index, IndexMut, Mul, Sub};

    pub struct DMatrix<T>(PhantomData<T>);
    pub struct DVector<T>(PhantomData<T>);
    pub struct Lu<T>(PhantomData<T>);

    impl<T> DMatrix<T> {
        pub fn zeros(_rows: usize, _cols: usize) -> Self {
            unimplemented!()
        }
        pub fn identity(_rows: usize, _cols: usize) -> Self {
            unimplemented!()
        }
        pub fn lu(self) -> Lu<T> {
            unimplemented!()
        }
    }

    impl<T> DVector<T> {
        pub fn from_iterator(_len: usize, _from: impl Iterator<Item = T>) -> Self {
            unimplemented!()
        }
    }

    impl<T> Lu<T> {
        pub fn solve<B>(&self, _right: &B) -> Option<B> {
            unimplemented!()
        }
    }

    impl<T> Index<(usize, usize)> for DMatrix<T> {
        type Output = T;
        fn index(&self, _at: (usize, usize)) -> &T {
            unimplemented!()
        }
    }

    impl<T> IndexMut<(usize, usize)> for DMatrix<T> {
        fn index_mut(&mut self, _at: (usize, usize)) -> &mut T {
            unimplemented!()
        }
    }

    impl<T> Index<usize> for DVector<T> {
        type Output = T;
        fn index(&self, _at: usize) -> &T {
            unimplemented!()
        }
    }

    impl<T> Mul for DMatrix<T> {
        type Output = Self;
        fn mul(self, _other: Self) -> Self {
            unimplemented!()
        }
    }

    impl<T> Sub for DMatrix<T> {
        type Output = Self;
        fn sub(self, _other: Self) -> Self {
            unimplemented!()
        }
    }
}
