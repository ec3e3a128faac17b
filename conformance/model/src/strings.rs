//! Strings that a program makes. Each stays in its place until all of them
//! go, so that a value may be a part of one, as of the state's text.

use std::cell::{Cell, OnceCell};

/// How many strings are kept together.
const ROOM: usize = 32;

type Link = OnceCell<Box<Shelf>>;

#[derive(Default)]
struct Shelf {
    strings: [OnceCell<Vec<u8>>; ROOM],
    next: Link,
}

/// The strings made, in order.
#[derive(Default)]
pub struct Strings {
    first: Link,
}

impl Drop for Strings {
    /// One shelf after the other, because each owns the next: left to
    /// themselves they would go one inside the other, as deep as there are
    /// shelves.
    fn drop(&mut self) {
        let mut next = self.first.take();
        while let Some(mut shelf) = next {
            next = shelf.next.take();
        }
    }
}

/// Adds to the strings. A maker's copy adds behind what both have added.
#[derive(Clone)]
pub struct Maker<'a> {
    /// The shelf that strings go to, and how many of its places are taken at
    /// least.
    shelf: Cell<&'a Link>,
    taken: Cell<usize>,
}

impl<'a> Maker<'a> {
    pub fn new(strings: &'a Strings) -> Maker<'a> {
        Maker {
            shelf: Cell::new(&strings.first),
            taken: Cell::new(0),
        }
    }

    pub fn keep(&self, mut bytes: Vec<u8>) -> &'a [u8] {
        loop {
            let shelf = self.shelf.get().get_or_init(Box::default);
            let Some(place) = shelf.strings.get(self.taken.get()) else {
                self.shelf.set(&shelf.next);
                self.taken.set(0);
                continue;
            };
            self.taken.set(self.taken.get() + 1);
            match place.set(bytes) {
                Ok(()) => return place.get().map_or(&[], Vec::as_slice),
                Err(given_back) => bytes = given_back,
            }
        }
    }
}
