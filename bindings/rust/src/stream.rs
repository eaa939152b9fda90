//! Push/pull streams: their forms, the results of taking one in, and streams that come in pieces.

use crate::error::{Error, Result};
use crate::raw::{self, DONE, ENDED};

/// The form of a stream to write.
#[derive(Clone, Copy, Debug, PartialEq, Eq, Hash)]
pub enum Form<'a> {
    /// All that the table keeps, in canonical bytes.
    Canonical,
    /// A stream that memberlist merges, with one record for each member: its state, or its newest Alive if it
    /// came back, with the newest address, port, metadata and versions. Members of which no sound versions
    /// are known are left out; [`Node::left_out`](crate::Node::left_out) tells how many.
    Memberlist {
        /// The user state at the end of the stream, which memberlist's delegates read. It may be empty.
        user: &'a [u8],
    },
}

impl<'a> Form<'a> {
    /// The number of the form, and the user state.
    pub(crate) fn parts(self) -> (u32, &'a [u8]) {
        match self {
            Form::Canonical => (0, &[]),
            Form::Memberlist { user } => (1, user),
        }
    }
}

/// The result of taking in a stream.
#[derive(Clone, Copy, Debug, PartialEq, Eq)]
pub struct Taken {
    /// The stream's join flag.
    pub join: bool,
    /// Whether the table changed.
    pub news: bool,
    /// The length of the stream; bytes after it were not read.
    pub used: usize,
}

impl From<raw::Exchanged> for Taken {
    fn from(made: raw::Exchanged) -> Taken {
        Taken { join: made.join, news: made.news, used: made.used }
    }
}

/// The reply to a stream, and the result of taking it in.
#[derive(Clone, Debug, PartialEq, Eq)]
pub struct Answer {
    pub reply: Vec<u8>,
    pub taken: Taken,
}

/// A stream that is all there.
#[derive(Clone, Copy, Debug, PartialEq, Eq)]
pub struct Whole<'a> {
    /// The length of the stream.
    pub used: usize,
    /// The user state at its end, or nothing.
    pub user: &'a [u8],
}

/// How far a stream that comes in pieces has been read. Each stream needs its own.
///
/// ```
/// use swimtab::{Details, Form, Node, Progress};
///
/// let node = Node::open(b"a", &Details::new(([10, 0, 0, 1], 7946)))?;
/// let stream = node.offer(true, Form::Memberlist { user: b"mine" })?;
/// let mut progress = Progress::new();
/// assert_eq!(progress.whole(&stream[..20])?, None);
/// assert_eq!(progress.whole(&stream)?.map(|whole| whole.user), Some(&b"mine"[..]));
/// # Ok::<(), swimtab::Error>(())
/// ```
#[derive(Clone, Debug, Default)]
pub struct Progress {
    read: raw::Progress,
}

impl Progress {
    /// The progress of a stream of which nothing was read yet.
    pub fn new() -> Progress {
        Progress::default()
    }

    /// The stream with which the bytes that came so far begin, or `None` if they end before it does. The
    /// bytes of each later call begin with those of the last call. Each record is read once, however many
    /// pieces there are.
    ///
    /// # Errors
    ///
    /// `Memory`, after which the same call may be repeated, and otherwise the fault at which reading stops:
    /// the bytes do not begin with a stream, whatever follows.
    pub fn whole<'a>(&mut self, bytes: &'a [u8]) -> Result<Option<Whole<'a>>> {
        // SAFETY: both live as long as the call, and the library keeps neither.
        match unsafe { raw::swimtab_whole(&mut self.read, bytes.as_ptr(), bytes.len()) } {
            DONE => {
                let used = self.read.at.saturating_add(self.read.user_len as usize);
                // With bytes that do not begin with those of the last call, the result means nothing.
                Ok(Some(Whole { used, user: bytes.get(self.read.at..used).unwrap_or(&[]) }))
            }
            ENDED => Ok(None),
            status => Err(Error::of(status)),
        }
    }
}
