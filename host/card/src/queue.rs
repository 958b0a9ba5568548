//! What the queues share: the traits, and the calls that are alike in all.

use crate::{Drained, Element, Refusal, Request, Stopped};

/// Words, or records, that a queue is worked on: a lent slice, an array, a vector.
pub trait Lent<T>: AsRef<[T]> + AsMut<[T]> {}

impl<T, L: AsRef<[T]> + AsMut<[T]>> Lent<T> for L {}

/// A queue: the lowest rank leaves first. Every queue of this crate is one, whatever its words lie in; a call means what the queue's own
/// call of that name does.
///
/// ```
/// use card_host::{Element, Length, Queue, Rank, Refusal, Tag, TreeQueue, BucketQueue};
///
/// fn lowest(queue: &mut impl Queue<Pushed = Element>) -> Result<Rank, Refusal> {
///     for rank in [5, 3, 8] {
///         queue.push(Element::new(Rank(rank), Tag(10 * rank), Length(64)))?;
///     }
///     Ok(queue.pop()?.rank)
/// }
/// assert_eq!(lowest(&mut TreeQueue::new(2, 2).unwrap()), Ok(Rank(3)));
/// assert_eq!(lowest(&mut BucketQueue::new(2, 2).unwrap()), Err(Refusal::Full));
/// ```
///
/// A queue is neither `Copy` nor `Clone`: a copy of one over an array would be a second queue with the same strips in it, and nobody would
/// have said so. Whoever wants that copies the words and says `from_words`.
///
/// ```compile_fail,E0382
/// use card_host::{tree_words, Tree};
///
/// let queue = Tree::cleared(2, 2, [0; tree_words(2, 2)]).unwrap();
/// let other = queue;
/// queue.held().unwrap();
/// ```
pub trait Queue {
    /// What a push takes in: an element, or a [`Strip`](crate::Strip) where the ranks are fair.
    type Pushed;

    /// Takes one in.
    fn push(&mut self, x: Self::Pushed) -> Result<(), Refusal>;

    /// Gives the element of lowest rank. Refused [`Refusal::Empty`] where nothing is held.
    fn pop(&mut self) -> Result<Element, Refusal>;

    /// How many elements are held.
    fn held(&self) -> Result<u32, Refusal>;

    /// How many elements can be held; 0 for a bad shape.
    fn capacity(&self) -> usize;
}

/// A queue that is emptied by one call.
pub trait Clear: Queue {
    /// Empties it: nothing is held, nothing is pending.
    fn clear(&mut self) -> Result<(), Refusal>;
}

/// A queue that replaces.
pub trait Replace: Queue<Pushed = Element> {
    /// A pop, and then a push of the new element: gives the element of lowest rank, even if the new rank is lower.
    fn replace(&mut self, x: Element) -> Result<Element, Refusal>;
}

/// A queue that is worked by clock cycles: each push, pop and replace is a cycle.
pub trait Machine: Replace + Clear {
    /// Runs one cycle.
    fn cycle(&mut self, request: Request) -> Result<Element, Refusal>;

    /// Runs idle cycles until nothing is pending or the budget is spent.
    fn drain(&mut self, budget: u32) -> Result<Drained, Stopped>;
}

/// The numbers of a queue's shape, each with its accessor, and how many elements they have room for.
macro_rules! shape {
    ($queue:ident<$($part:ident),*> { $($(#[$says:meta])* $number:ident,)* } room $room:path) => {
        impl<$($part),*> $queue<$($part),*> {
            $(
                $(#[$says])*
                #[inline]
                pub fn $number(&self) -> u32 {
                    self.$number
                }
            )*

            /// How many elements can be held; 0 for a bad shape.
            #[inline]
            pub fn capacity(&self) -> usize {
                $room($(self.$number),*)
            }
        }
    };
}

/// The calls of a queue of one operation at a time: the library's, on the slices and the numbers that it has.
macro_rules! operations {
    ($queue:ident<$($part:ident: $word:ty),*> on ($($store:ident),*) of ($($number:ident),*):
        $clear:ident, $push:ident, $pop:ident, $replace:ident, $held:ident) => {
        impl<$($part: $crate::Lent<$word>),*> $queue<$($part),*> {
            /// Empties the queue: nothing is held.
            #[inline]
            pub fn clear(&mut self) -> Result<(), Refusal> {
                refused(calls::$clear($(self.$store.as_mut(),)* $(self.$number),*))
            }

            /// Takes an element in. Refused [`Refusal::NoTag`] with tag 0, [`Refusal::Full`] where there is no room, and
            /// [`Refusal::BadRank`] above the last rank of a queue that has one.
            #[inline]
            pub fn push(&mut self, x: Element) -> Result<(), Refusal> {
                refused(calls::$push($(self.$store.as_mut(),)* $(self.$number,)* x.rank.0, x.tag.0, x.length.0))
            }

            /// Gives the element of lowest rank. Refused [`Refusal::Empty`] where nothing is held.
            #[inline]
            pub fn pop(&mut self) -> Result<Element, Refusal> {
                let mut out = [0; 3];
                refused(calls::$pop($(self.$store.as_mut(),)* $(self.$number,)* &mut out))?;
                Ok(Element::from(out))
            }

            /// A pop, and then a push of the new element: gives the element of lowest rank, even if the new rank is lower. Works on a full
            /// queue, but for lines of kind 1: [`Refusal::Full`] where the line of the new rank did not give and is full. Refused
            /// [`Refusal::NoTag`] with tag 0, [`Refusal::Empty`] where nothing is held, and [`Refusal::BadRank`] above the last rank of a
            /// queue that has one.
            #[inline]
            pub fn replace(&mut self, x: Element) -> Result<Element, Refusal> {
                let (rank, tag, length, mut out) = (x.rank.0, x.tag.0, x.length.0, [0; 3]);
                refused(calls::$replace($(self.$store.as_mut(),)* $(self.$number,)* rank, tag, length, &mut out))?;
                Ok(Element::from(out))
            }

            /// How many elements are held.
            #[inline]
            pub fn held(&self) -> Result<u32, Refusal> {
                let mut out = [0; 1];
                refused(calls::$held($(self.$store.as_ref(),)* $(self.$number,)* &mut out))?;
                Ok(out[0])
            }
        }

        queue! { [$($part: $crate::Lent<$word>),*] $queue<$($part),*>: Queue, Clear, Replace }
    };
}

/// The calls of a queue that is worked by clock cycles: the library's, on the slices and the numbers that it has, and on what is pending.
macro_rules! cycles {
    ($queue:ident<$($part:ident: $word:ty),*> on ($($store:ident),*) of ($($number:ident),*) pending ($($pending:ident),*):
        $clear:ident, $cycle:ident, $drain:ident, $held:ident) => {
        impl<$($part: $crate::Lent<$word>),*> $queue<$($part),*> {
            /// Empties the queue: nothing is held, nothing is pending.
            #[inline]
            pub fn clear(&mut self) -> Result<(), Refusal> {
                refused(calls::$clear($(self.$store.as_mut(),)* $(self.$number,)* $(self.$pending.as_mut()),*))
            }

            /// Runs one cycle. An idle cycle or a push answers rank 0, tag 0, length 0. Refused [`Refusal::TooSoon`],
            /// [`Refusal::BadRank`], [`Refusal::Full`], [`Refusal::Empty`] or [`Refusal::NoTag`] it runs as an idle cycle; after any other
            /// refusal everything stands.
            #[inline]
            pub fn cycle(&mut self, request: Request) -> Result<Element, Refusal> {
                let ((number, rank, tag, length), mut out) = (request.numbers(), [0; 3]);
                refused(calls::$cycle(
                    $(self.$store.as_mut(),)* $(self.$number,)* $(self.$pending.as_mut(),)* number, rank, tag, length, &mut out,
                ))?;
                Ok(Element::from(out))
            }

            /// A cycle that takes an element in. Refused [`Refusal::NoTag`] with tag 0, [`Refusal::Full`] where there is no room.
            #[inline]
            pub fn push(&mut self, x: Element) -> Result<(), Refusal> {
                self.cycle(Request::Push(x)).map(|_| ())
            }

            /// A cycle that gives the element of lowest rank. Refused [`Refusal::Empty`] where nothing is held.
            #[inline]
            pub fn pop(&mut self) -> Result<Element, Refusal> {
                self.cycle(Request::Pop)
            }

            /// A cycle that is a pop, and then a push of the new element: gives the element of lowest rank, even if the new rank is lower.
            /// Refused as the replace of one operation at a time is.
            #[inline]
            pub fn replace(&mut self, x: Element) -> Result<Element, Refusal> {
                self.cycle(Request::Replace(x))
            }

            /// An idle cycle: pending work moves on.
            #[inline]
            pub fn idle(&mut self) -> Result<(), Refusal> {
                self.cycle(Request::Idle).map(|_| ())
            }

            /// Runs idle cycles until nothing is pending or the budget is spent. Where a cycle would be refused, [`Stopped`] says why, and
            /// how many cycles were run before it.
            #[inline]
            pub fn drain(&mut self, budget: u32) -> Result<Drained, Stopped> {
                let mut out = [0; 2];
                match refused(calls::$drain(
                    $(self.$store.as_mut(),)* $(self.$number,)* $(self.$pending.as_mut(),)* budget, &mut out,
                )) {
                    Ok(()) => Ok(Drained { cycles: out[0], work_left: out[1] != 0 }),
                    Err(refusal) => Err(Stopped { refusal, cycles: out[0] }),
                }
            }

            /// How many elements are held, in the middle of any work too. Reads the root alone, of lines the counts.
            #[inline]
            pub fn held(&self) -> Result<u32, Refusal> {
                let mut out = [0; 1];
                refused(calls::$held($(self.$store.as_ref(),)* $(self.$number,)* &mut out))?;
                Ok(out[0])
            }
        }

        queue! { [$($part: $crate::Lent<$word>),*] $queue<$($part),*>: Queue, Clear, Replace, Machine }
    };
}

/// A queue's own calls as those of the traits.
macro_rules! queue {
    (Queue [$($part:tt)*] $queue:ty) => {
        impl<$($part)*> $crate::Queue for $queue {
            type Pushed = Element;
            #[inline]
            fn push(&mut self, x: Element) -> Result<(), Refusal> {
                self.push(x)
            }
            #[inline]
            fn pop(&mut self) -> Result<Element, Refusal> {
                self.pop()
            }
            #[inline]
            fn held(&self) -> Result<u32, Refusal> {
                self.held()
            }
            #[inline]
            fn capacity(&self) -> usize {
                self.capacity()
            }
        }
    };
    (Clear [$($part:tt)*] $queue:ty) => {
        impl<$($part)*> $crate::Clear for $queue {
            #[inline]
            fn clear(&mut self) -> Result<(), Refusal> {
                self.clear()
            }
        }
    };
    (Replace [$($part:tt)*] $queue:ty) => {
        impl<$($part)*> $crate::Replace for $queue {
            #[inline]
            fn replace(&mut self, x: Element) -> Result<Element, Refusal> {
                self.replace(x)
            }
        }
    };
    (Machine [$($part:tt)*] $queue:ty) => {
        impl<$($part)*> $crate::Machine for $queue {
            #[inline]
            fn cycle(&mut self, request: Request) -> Result<Element, Refusal> {
                self.cycle(request)
            }
            #[inline]
            fn drain(&mut self, budget: u32) -> Result<Drained, Stopped> {
                self.drain(budget)
            }
        }
    };
    ($parts:tt $queue:ty: $($as:ident),*) => {
        $(queue! { $as $parts $queue })*
    };
}
