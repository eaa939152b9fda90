//! Exchanges of tables.

use crate::bytes::{owned, Buffer};
use crate::error::{done, Result};
use crate::node::Node;
use crate::raw;
use crate::stream::{Answer, Form, Taken};

impl Node {
    /// The node's table as a push/pull stream, which begins an exchange. memberlist sets `join` when a member
    /// joins.
    ///
    /// ```
    /// use swimtab::{Details, Form, Node, Relation};
    ///
    /// let mut a = Node::open(b"a", &Details::new(([10, 0, 0, 1], 7946)))?;
    /// let mut b = Node::open(b"b", &Details::new(([10, 0, 0, 2], 7946)))?;
    /// let answer = a.answer(&b.offer(true, Form::Canonical)?, Form::Canonical)?;
    /// b.finish(&answer.reply)?;
    /// assert_eq!(a.relation(&b), Relation::Equal);
    /// # Ok::<(), swimtab::Error>(())
    /// ```
    ///
    /// # Errors
    ///
    /// `UserTooLong` if there are more than 20,971,520 bytes of user state; `TooManyRecords` if the table has
    /// more than 131,072 records; `Memory`.
    pub fn offer(&self, join: bool, form: Form<'_>) -> Result<Vec<u8>> {
        let (number, user) = form.parts();
        owned(|buffer| {
            // SAFETY: the handle has a node, no other call runs, and what is passed lives during the call.
            unsafe {
                raw::swimtab_offer_new(self.handle.get(), join, number, user.as_ptr(), user.len(), buffer)
            }
        })
    }

    /// How many members an offer in the form `Memberlist` leaves out, because no Alive of them with sound
    /// versions is known.
    pub fn left_out(&self) -> usize {
        // SAFETY: the handle has a node, and no other call runs.
        unsafe { raw::swimtab_left_out(self.handle.get()) }
    }

    /// The bytes that `swimtab merge` prints for the table: the canonical form without the join flag.
    ///
    /// # Errors
    ///
    /// Those of `offer`.
    pub fn dump(&self) -> Result<Vec<u8>> {
        self.offer(false, Form::Canonical)
    }

    /// Answers an offer: takes the stream in, and returns the table as it was before, in this form. A
    /// suspicion may have come with the stream, so call `refute` afterwards.
    ///
    /// # Errors
    ///
    /// The fault at which reading the stream stops; after `Ended`, and only then, more bytes may help. Those
    /// of `offer`. Then nothing was taken in.
    pub fn answer(&mut self, stream: &[u8], form: Form<'_>) -> Result<Answer> {
        let mut buffer = Buffer::new();
        let (number, user) = form.parts();
        // SAFETY: as in offer.
        let made = unsafe {
            raw::swimtab_answer_new(
                self.handle.get(),
                stream.as_ptr(),
                stream.len(),
                number,
                user.as_ptr(),
                user.len(),
                buffer.at(),
            )
        };
        done(made.status)?;
        Ok(Answer { reply: buffer.bytes().to_vec(), taken: made.into() })
    }

    /// Takes in a stream: the reply to an offer, or a dump. A suspicion may have come with it, so call
    /// `refute` afterwards.
    ///
    /// # Errors
    ///
    /// The fault at which reading the stream stops; after `Ended`, and only then, more bytes may help.
    /// `Memory`. Then nothing was taken in.
    pub fn finish(&mut self, stream: &[u8]) -> Result<Taken> {
        // SAFETY: as in offer.
        let made = unsafe { raw::swimtab_finish(self.handle.get(), stream.as_ptr(), stream.len()) };
        done(made.status)?;
        Ok(made.into())
    }
}
