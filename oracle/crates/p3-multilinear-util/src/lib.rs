//! The list of a multilinear polynomial's values, with what the module's four files use of it.

pub mod poly {
    /// Values in index order. Any number of them is taken.
    #[derive(Debug, Clone)]
    pub struct Poly<F> {
        values: Vec<F>,
    }

    impl<F> Poly<F> {
        pub fn new(values: Vec<F>) -> Self {
            Self { values }
        }

        pub fn as_slice(&self) -> &[F] {
            &self.values
        }
    }
}
