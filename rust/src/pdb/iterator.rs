use std::cmp::Ordering;

/// An iterator each of whose steps may fail, and so may each function that an adapter is given.
pub trait FallibleIterator {
    /// What a step gives.
    type Item;
    /// Why a step fails.
    type Error;

    /// The next item, None after the last one.
    fn next(&mut self) -> Result<Option<Self::Item>, Self::Error>;

    /// How many items are left: at least so many, and at most so many where that is known.
    fn size_hint(&self) -> (usize, Option<usize>) {
        (0, None)
    }

    /// The iterator itself, so that an adapter leaves what it doesn't take.
    fn by_ref(&mut self) -> &mut Self
    where
        Self: Sized,
    {
        self
    }

    /// An iterator of the standard library, each of whose items is a result.
    fn iterator(self) -> Results<Self>
    where
        Self: Sized,
    {
        Results(self)
    }

    /// The items that are left, or the first error.
    fn collect<C: FromIterator<Self::Item>>(self) -> Result<C, Self::Error>
    where
        Self: Sized,
    {
        self.iterator().collect()
    }

    /// The items that a function wants, and the others.
    fn partition<C, F>(self, mut wants: F) -> Result<(C, C), Self::Error>
    where
        Self: Sized,
        C: Default + Extend<Self::Item>,
        F: FnMut(&Self::Item) -> Result<bool, Self::Error>,
    {
        self.fold((C::default(), C::default()), |(mut wanted, mut others), item| {
            let is_wanted = wants(&item)?;
            if is_wanted { &mut wanted } else { &mut others }.extend([item]);
            Ok((wanted, others))
        })
    }

    /// What a function makes of the items that are left, one after another.
    fn fold<B, F>(mut self, start: B, mut step: F) -> Result<B, Self::Error>
    where
        Self: Sized,
        F: FnMut(B, Self::Item) -> Result<B, Self::Error>,
    {
        let mut made = start;
        while let Some(item) = self.next()? {
            made = step(made, item)?;
        }
        Ok(made)
    }

    /// Gives each item that is left to a function.
    fn for_each<F>(self, mut each: F) -> Result<(), Self::Error>
    where
        Self: Sized,
        F: FnMut(Self::Item) -> Result<(), Self::Error>,
    {
        self.fold((), |(), item| each(item))
    }

    /// How many items are left.
    fn count(self) -> Result<usize, Self::Error>
    where
        Self: Sized,
    {
        self.fold(0, |count, _| Ok(count + 1))
    }

    /// The last item.
    fn last(self) -> Result<Option<Self::Item>, Self::Error>
    where
        Self: Sized,
    {
        self.fold(None, |_, item| Ok(Some(item)))
    }

    /// The item behind so many others.
    fn nth(&mut self, count: usize) -> Result<Option<Self::Item>, Self::Error> {
        for _ in 0..count {
            if self.next()?.is_none() {
                return Ok(None);
            }
        }
        self.next()
    }

    /// What a function makes of the first item of which it makes something.
    fn find_map<B, F>(&mut self, mut with: F) -> Result<Option<B>, Self::Error>
    where
        Self: Sized,
        F: FnMut(Self::Item) -> Result<Option<B>, Self::Error>,
    {
        while let Some(item) = self.next()? {
            if let Some(made) = with(item)? {
                return Ok(Some(made));
            }
        }
        Ok(None)
    }

    /// The first item that a function wants.
    fn find<F>(&mut self, mut wants: F) -> Result<Option<Self::Item>, Self::Error>
    where
        Self: Sized,
        F: FnMut(&Self::Item) -> Result<bool, Self::Error>,
    {
        self.find_map(|item| Ok(wants(&item)?.then_some(item)))
    }

    /// How many items stand before the first one that a function wants.
    fn position<F>(&mut self, mut wants: F) -> Result<Option<usize>, Self::Error>
    where
        Self: Sized,
        F: FnMut(Self::Item) -> Result<bool, Self::Error>,
    {
        self.enumerate().find_map(|(at, item)| Ok(wants(item)?.then_some(at)))
    }

    /// Whether a function wants one of the items.
    fn any<F>(&mut self, wants: F) -> Result<bool, Self::Error>
    where
        Self: Sized,
        F: FnMut(Self::Item) -> Result<bool, Self::Error>,
    {
        Ok(self.position(wants)?.is_some())
    }

    /// Whether a function wants each of the items.
    fn all<F>(&mut self, mut wants: F) -> Result<bool, Self::Error>
    where
        Self: Sized,
        F: FnMut(Self::Item) -> Result<bool, Self::Error>,
    {
        Ok(!self.any(|item| Ok(!wants(item)?))?)
    }

    /// The largest item, the last one of equals.
    fn max(self) -> Result<Option<Self::Item>, Self::Error>
    where
        Self: Sized,
        Self::Item: Ord,
    {
        self.max_by(|one, other| Ok(one.cmp(other)))
    }

    /// The item whose key is the largest, the last one of equals.
    fn max_by_key<B, F>(self, mut key: F) -> Result<Option<Self::Item>, Self::Error>
    where
        Self: Sized,
        B: Ord,
        F: FnMut(&Self::Item) -> Result<B, Self::Error>,
    {
        self.max_by(|one, other| Ok(key(one)?.cmp(&key(other)?)))
    }

    /// The largest item by an order, the last one of equals.
    fn max_by<F>(self, mut order: F) -> Result<Option<Self::Item>, Self::Error>
    where
        Self: Sized,
        F: FnMut(&Self::Item, &Self::Item) -> Result<Ordering, Self::Error>,
    {
        self.fold(None, |best, item| match best {
            Some(best) if order(&best, &item)?.is_gt() => Ok(Some(best)),
            _ => Ok(Some(item)),
        })
    }

    /// The smallest item, the first one of equals.
    fn min(self) -> Result<Option<Self::Item>, Self::Error>
    where
        Self: Sized,
        Self::Item: Ord,
    {
        self.min_by(|one, other| Ok(one.cmp(other)))
    }

    /// The item whose key is the smallest, the first one of equals.
    fn min_by_key<B, F>(self, mut key: F) -> Result<Option<Self::Item>, Self::Error>
    where
        Self: Sized,
        B: Ord,
        F: FnMut(&Self::Item) -> Result<B, Self::Error>,
    {
        self.min_by(|one, other| Ok(key(one)?.cmp(&key(other)?)))
    }

    /// The smallest item by an order, the first one of equals.
    fn min_by<F>(self, mut order: F) -> Result<Option<Self::Item>, Self::Error>
    where
        Self: Sized,
        F: FnMut(&Self::Item, &Self::Item) -> Result<Ordering, Self::Error>,
    {
        self.fold(None, |best, item| match best {
            Some(best) if order(&best, &item)?.is_le() => Ok(Some(best)),
            _ => Ok(Some(item)),
        })
    }

    /// What a function makes of each item.
    fn map<B, F>(mut self, mut with: F) -> impl FallibleIterator<Item = B, Error = Self::Error>
    where
        Self: Sized,
        F: FnMut(Self::Item) -> Result<B, Self::Error>,
    {
        Steps(move || self.next()?.map(&mut with).transpose())
    }

    /// The same items, with what a function makes of an error.
    fn map_err<E, F>(mut self, mut with: F) -> impl FallibleIterator<Item = Self::Item, Error = E>
    where
        Self: Sized,
        F: FnMut(Self::Error) -> E,
    {
        Steps(move || self.next().map_err(&mut with))
    }

    /// What a function makes of the items of which it makes something.
    fn filter_map<B, F>(mut self, mut with: F) -> impl FallibleIterator<Item = B, Error = Self::Error>
    where
        Self: Sized,
        F: FnMut(Self::Item) -> Result<Option<B>, Self::Error>,
    {
        Steps(move || self.find_map(&mut with))
    }

    /// The items that a function wants.
    fn filter<F>(mut self, mut wants: F) -> impl FallibleIterator<Item = Self::Item, Error = Self::Error>
    where
        Self: Sized,
        F: FnMut(&Self::Item) -> Result<bool, Self::Error>,
    {
        Steps(move || self.find(&mut wants))
    }

    /// Each item, with how many stand before it.
    fn enumerate(mut self) -> impl FallibleIterator<Item = (usize, Self::Item), Error = Self::Error>
    where
        Self: Sized,
    {
        let mut counted = 0..;
        Steps(move || Ok(self.next()?.and_then(|item| Some((counted.next()?, item)))))
    }

    /// Each item, after a function has seen it.
    fn inspect<F>(self, mut see: F) -> impl FallibleIterator<Item = Self::Item, Error = Self::Error>
    where
        Self: Sized,
        F: FnMut(&Self::Item) -> Result<(), Self::Error>,
    {
        self.map(move |item| see(&item).map(|()| item))
    }

    /// The first items, so many.
    fn take(mut self, count: usize) -> impl FallibleIterator<Item = Self::Item, Error = Self::Error>
    where
        Self: Sized,
    {
        let mut counted = 0..count;
        Steps(move || counted.next().map_or(Ok(None), |_| self.next()))
    }

    /// The items before the first one that a function doesn't want.
    fn take_while<F>(mut self, mut wants: F) -> impl FallibleIterator<Item = Self::Item, Error = Self::Error>
    where
        Self: Sized,
        F: FnMut(&Self::Item) -> Result<bool, Self::Error>,
    {
        let mut has_ended = false;
        Steps(move || {
            let item = if has_ended { None } else { self.next()? };
            has_ended = !item.as_ref().map_or(Ok(false), &mut wants)?;
            Ok(item.filter(|_| !has_ended))
        })
    }

    /// The items behind the first ones, so many.
    fn skip(mut self, count: usize) -> impl FallibleIterator<Item = Self::Item, Error = Self::Error>
    where
        Self: Sized,
    {
        let mut left = count;
        Steps(move || self.nth(std::mem::take(&mut left)))
    }

    /// The items from the first one on that a function doesn't want.
    fn skip_while<F>(self, mut wants: F) -> impl FallibleIterator<Item = Self::Item, Error = Self::Error>
    where
        Self: Sized,
        F: FnMut(&Self::Item) -> Result<bool, Self::Error>,
    {
        let mut has_begun = false;
        self.filter(move |item| {
            has_begun = has_begun || !wants(item)?;
            Ok(has_begun)
        })
    }

    /// The first item, and then each one that is so many behind the one before.
    fn step_by(mut self, step: usize) -> impl FallibleIterator<Item = Self::Item, Error = Self::Error>
    where
        Self: Sized,
    {
        let (mut passed, between) = (0, step.saturating_sub(1));
        Steps(move || self.nth(std::mem::replace(&mut passed, between)))
    }

    /// The items of this iterator, and then those of another one.
    fn chain<I>(mut self, mut other: I) -> impl FallibleIterator<Item = Self::Item, Error = Self::Error>
    where
        Self: Sized,
        I: FallibleIterator<Item = Self::Item, Error = Self::Error>,
    {
        let mut has_ended = false;
        Steps(move || {
            let item = if has_ended { None } else { self.next()? };
            has_ended = item.is_none();
            if has_ended { other.next() } else { Ok(item) }
        })
    }

    /// The items of this iterator, each with that of another one, until one of them ends.
    fn zip<I>(mut self, mut other: I) -> impl FallibleIterator<Item = (Self::Item, I::Item), Error = Self::Error>
    where
        Self: Sized,
        I: FallibleIterator<Error = Self::Error>,
    {
        Steps(move || match self.next()? {
            Some(item) => Ok(other.next()?.map(|other| (item, other))),
            None => Ok(None),
        })
    }

    /// The items of the iterators that a function makes of each item.
    fn flat_map<I, F>(mut self, mut with: F) -> impl FallibleIterator<Item = I::Item, Error = Self::Error>
    where
        Self: Sized,
        I: FallibleIterator<Error = Self::Error>,
        F: FnMut(Self::Item) -> Result<I, Self::Error>,
    {
        let mut items: Option<I> = None;
        Steps(move || {
            loop {
                if let Some(item) = items.as_mut().map_or(Ok(None), I::next)? {
                    return Ok(Some(item));
                }
                items = self.next()?.map(&mut with).transpose()?;
                if items.is_none() {
                    return Ok(None);
                }
            }
        })
    }

    /// The same items, and None for ever after the last one.
    fn fuse(self) -> impl FallibleIterator<Item = Self::Item, Error = Self::Error>
    where
        Self: Sized,
    {
        self.take_while(|_| Ok(true))
    }

    /// The same items, of which the next one can be looked at before it is taken.
    fn peekable(self) -> Peekable<Self>
    where
        Self: Sized,
    {
        Peekable { items: self, next: None }
    }
}

impl<I: FallibleIterator + ?Sized> FallibleIterator for &mut I {
    type Item = I::Item;
    type Error = I::Error;

    fn next(&mut self) -> Result<Option<I::Item>, I::Error> {
        (**self).next()
    }

    fn size_hint(&self) -> (usize, Option<usize>) {
        (**self).size_hint()
    }
}

impl<I: FallibleIterator + ?Sized> FallibleIterator for Box<I> {
    type Item = I::Item;
    type Error = I::Error;

    fn next(&mut self) -> Result<Option<I::Item>, I::Error> {
        (**self).next()
    }

    fn size_hint(&self) -> (usize, Option<usize>) {
        (**self).size_hint()
    }
}

/// The iterator whose steps a function makes.
struct Steps<F>(F);

impl<F: FnMut() -> Result<Option<T>, E>, T, E> FallibleIterator for Steps<F> {
    type Item = T;
    type Error = E;

    fn next(&mut self) -> Result<Option<T>, E> {
        (self.0)()
    }
}

/// The items of an iterator, as results.
#[derive(Debug, Clone)]
pub struct Results<I>(I);

impl<I: FallibleIterator> Iterator for Results<I> {
    type Item = Result<I::Item, I::Error>;

    fn next(&mut self) -> Option<Self::Item> {
        self.0.next().transpose()
    }

    fn size_hint(&self) -> (usize, Option<usize>) {
        self.0.size_hint()
    }
}

/// The items of an iterator, of which the next one can be looked at before it is taken.
#[derive(Debug, Clone)]
pub struct Peekable<I: FallibleIterator> {
    items: I,
    next: Option<I::Item>,
}

impl<I: FallibleIterator> Peekable<I> {
    /// The next item, which stays the next one.
    pub fn peek(&mut self) -> Result<Option<&I::Item>, I::Error> {
        if self.next.is_none() {
            self.next = self.items.next()?;
        }
        Ok(self.next.as_ref())
    }
}

impl<I: FallibleIterator> FallibleIterator for Peekable<I> {
    type Item = I::Item;
    type Error = I::Error;

    fn next(&mut self) -> Result<Option<I::Item>, I::Error> {
        match self.next.take() {
            Some(item) => Ok(Some(item)),
            None => self.items.next(),
        }
    }
}
