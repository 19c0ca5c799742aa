//! Stand-in for futures-util: enough of a name for `entries` of async_reader.rs to compile.
pub mod stream {
    pub trait Stream {
        type Item;
    }
    pub type BoxStream<'a, T> = std::pin::Pin<Box<dyn Stream<Item = T> + Send + 'a>>;
    pub struct Empty<T>(std::marker::PhantomData<fn() -> T>);
    impl<T> Empty<T> {
        pub fn new() -> Self {
            Self(std::marker::PhantomData)
        }
    }
    impl<T> Stream for Empty<T> {
        type Item = T;
    }
}
