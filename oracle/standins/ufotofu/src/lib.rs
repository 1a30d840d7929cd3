//! Stands for the crate `ufotofu`: the traits, one consumer into a Vec, one producer from a slice. It decides nothing:
//! items come out as they went in, in order, and then the end.
#![allow(async_fn_in_trait)]
use either::Either;

pub trait Producer {
    type Item;
    type Final;
    type Error;
    async fn produce(&mut self) -> Result<Either<Self::Item, Self::Final>, Self::Error>;
    /// The next item; an error if the producer has ended or failed.
    async fn produce_item(&mut self) -> Result<Self::Item, NoItem<Self::Final, Self::Error>> {
        match self.produce().await {
            Ok(Either::Left(item)) => Ok(item),
            Ok(Either::Right(fin)) => Err(NoItem::Final(fin)),
            Err(err) => Err(NoItem::Error(err)),
        }
    }
}
#[derive(Debug)]
pub enum NoItem<F, E> {
    Final(F),
    Error(E),
}
pub trait BufferedProducer: Producer {
    async fn slurp(&mut self) -> Result<(), Self::Error>;
}
pub trait BulkProducer: BufferedProducer {
    async fn expose_items<'a>(
        &'a mut self,
    ) -> Result<Either<&'a [Self::Item], Self::Final>, Self::Error>
    where
        Self::Item: 'a;
    async fn consider_produced(&mut self, amount: usize) -> Result<(), Self::Error>;
}

pub trait Consumer {
    type Item;
    type Final;
    type Error;
    async fn consume(&mut self, item: Self::Item) -> Result<(), Self::Error>;
}
pub trait BulkConsumer: Consumer {
    async fn bulk_consume_full_slice(&mut self, items: &[Self::Item]) -> Result<(), Self::Error>;
}

pub mod consumer {
    use std::convert::Infallible;

    pub struct IntoVec<T>(Vec<T>);

    impl<T> IntoVec<T> {
        pub fn new() -> Self {
            IntoVec(Vec::new())
        }
        pub fn into_vec(self) -> Vec<T> {
            self.0
        }
    }
    impl<T> crate::Consumer for IntoVec<T> {
        type Item = T;
        type Final = ();
        type Error = Infallible;
        async fn consume(&mut self, item: T) -> Result<(), Infallible> {
            self.0.push(item);
            Ok(())
        }
    }
    impl<T: Clone> crate::BulkConsumer for IntoVec<T> {
        async fn bulk_consume_full_slice(&mut self, items: &[T]) -> Result<(), Infallible> {
            self.0.extend_from_slice(items);
            Ok(())
        }
    }
}

pub mod producer {
    use either::Either;
    use std::convert::Infallible;

    pub struct FromSlice<'s, T>(&'s [T], usize);

    impl<'s, T> FromSlice<'s, T> {
        pub fn new(slice: &'s [T]) -> Self {
            FromSlice(slice, 0)
        }
    }
    impl<T: Clone> crate::Producer for FromSlice<'_, T> {
        type Item = T;
        type Final = ();
        type Error = Infallible;
        async fn produce(&mut self) -> Result<Either<T, ()>, Infallible> {
            if self.1 == self.0.len() {
                return Ok(Either::Right(()));
            }
            self.1 += 1;
            Ok(Either::Left(self.0[self.1 - 1].clone()))
        }
    }
    impl<T: Clone> crate::BufferedProducer for FromSlice<'_, T> {
        async fn slurp(&mut self) -> Result<(), Infallible> {
            Ok(())
        }
    }
    impl<T: Clone> crate::BulkProducer for FromSlice<'_, T> {
        async fn expose_items<'a>(&'a mut self) -> Result<Either<&'a [T], ()>, Infallible>
        where
            T: 'a,
        {
            Ok(if self.1 == self.0.len() {
                Either::Right(())
            } else {
                Either::Left(&self.0[self.1..])
            })
        }
        async fn consider_produced(&mut self, amount: usize) -> Result<(), Infallible> {
            self.1 += amount;
            Ok(())
        }
    }
}
