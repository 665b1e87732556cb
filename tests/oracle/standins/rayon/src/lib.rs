//! Stands in for rayon: `par_iter` goes through the items one after another, in order.

pub mod prelude {
    pub trait ParIter {
        type Item;
        fn par_iter(&self) -> std::slice::Iter<'_, Self::Item>;
    }

    impl<T> ParIter for [T] {
        type Item = T;
        fn par_iter(&self) -> std::slice::Iter<'_, T> {
            self.iter()
        }
    }
}
