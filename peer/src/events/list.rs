//! Lists of events, and how often each happened.

use crate::generate::Sort;
use std::marker::PhantomData;

/// Events of one list.
pub trait Listed: Copy + 'static {
    /// The sorts of logs that reach them.
    type Sort: Sort;

    /// All of them, in the order of their numbers.
    const ALL: &'static [Self];

    /// Its place in the list.
    fn number(self) -> usize;

    /// What it is, in words.
    fn text(self) -> &'static str;

    /// The letters of the sorts that have to reach it.
    fn wanted(self) -> &'static str;

    /// The sort is meant to reach it.
    fn is_wanted_in(self, sort: Self::Sort) -> bool {
        self.wanted().contains(sort.letter())
    }
}

/// Declares a list of events in logs of some sorts: name, what it is, and the sorts that have to reach it,
/// by letter.
macro_rules! events {
    ($list:ident, $sort:ty; $($name:ident: $text:literal, $wanted:literal;)*) => {
        /// An interesting event.
        #[derive(Clone, Copy, PartialEq, Eq, Debug)]
        pub enum $list {
            $(#[doc = $text] $name,)*
        }

        impl $crate::events::Listed for $list {
            type Sort = $sort;

            const ALL: &'static [$list] = &[$($list::$name,)*];

            fn number(self) -> usize {
                self as usize
            }

            fn text(self) -> &'static str {
                match self { $($list::$name => $text,)* }
            }

            fn wanted(self) -> &'static str {
                match self { $($list::$name => $wanted,)* }
            }
        }
    };
}

pub(super) use events;

/// How often each event of a list happened.
#[derive(Clone)]
pub struct Counts<Event>(Vec<u64>, PhantomData<Event>);

impl<Event: Listed> Counts<Event> {
    /// Nothing happened yet.
    pub fn new() -> Self {
        Counts(vec![0; Event::ALL.len()], PhantomData)
    }

    /// How often this one happened.
    pub fn of(&self, event: Event) -> u64 {
        self.0[event.number()]
    }

    pub(super) fn note(&mut self, event: Event) {
        self.0[event.number()] += 1;
    }

    pub(super) fn note_if(&mut self, condition: bool, event: Event) {
        if condition {
            self.note(event);
        }
    }
}

impl<Event: Listed> Default for Counts<Event> {
    fn default() -> Self {
        Counts::new()
    }
}
