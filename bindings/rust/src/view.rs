//! The members as memberlist shows them.

use crate::bytes::{owned, written};
use crate::error::{done, Error, Result};
use crate::message::{parts, Kind};
use crate::raw::{self, DONE, NO_MEMBER};
use crate::shown::{Change, Event, Shown};
use crate::stream::Progress;
use std::cell::UnsafeCell;
use std::time::Duration;
use std::{fmt, iter};

/// What a member of memberlist shows that hears what the view is told, at these times, by the rules of
/// memberlist's `state.go`: a member that died or left may come back, and one that is suspected stays so until
/// somebody refutes it or declares it dead. It is for a program among members that run memberlist; a
/// [`Node`](crate::Node) is the other model.
///
/// A time is that of any clock that never goes back, in whole microseconds: `start.elapsed()` of an `Instant`.
///
/// It may move from thread to thread, but only one uses it at a time: it is `Send`, not `Sync`.
///
/// ```
/// use std::time::Duration;
/// use swimtab::{alive_of, dead_of, suspect_of, Details, Event, State, View};
///
/// let mut view = View::open(Duration::from_secs(30))?;
/// let at = Duration::from_secs;
/// view.take(at(1), &alive_of(b"b", &Details::new(([10, 0, 0, 2], 7946)))?)?;
/// view.take(at(2), &suspect_of(b"c", b"b", 1)?)?;
/// let change = view.take(at(3), &dead_of(b"c", b"b", 1)?)?.unwrap();
/// assert_eq!((change.event, change.member.state), (Event::Dead, State::Confirm));
/// assert_eq!((change.member.since, change.member.by.as_deref()), (at(3), Some(&b"c"[..])));
/// assert_eq!((view.forget(at(33)), view.forget(at(34))), (0, 1));
/// # Ok::<(), swimtab::Error>(())
/// ```
pub struct View {
    // Like a node's handle.
    handle: UnsafeCell<raw::View>,
}

// SAFETY: the library keeps no state per thread, and a handle may move between calls. `user` is null.
unsafe impl Send for View {}

impl View {
    /// Opens a view that shows nobody yet. `wait` is for how long a member that died or left is remembered:
    /// memberlist's `GossipToTheDeadTime`, 30 seconds in a local network.
    ///
    /// # Errors
    ///
    /// `Memory`.
    pub fn open(wait: Duration) -> Result<View> {
        let view = View { handle: UnsafeCell::new(raw::View::empty()) };
        // SAFETY: the handle is new.
        done(unsafe { raw::swimtab_view_open(view.handle.get(), micros(wait)) })?;
        Ok(view)
    }

    /// Tells the view the claim of a message, not a compound one, that came at this time. Returns what
    /// changed, if anything did. Keys that memberlist does not know are passed over, and what is said of a
    /// name that the view does not know, but for an Alive, changes nothing. The member itself is a name like
    /// any other.
    ///
    /// # Errors
    ///
    /// `WrongType` if it makes no claim, or is a compound message; the fault at which reading the message
    /// stops; `Memory`. Then nothing has changed.
    pub fn take(&mut self, time: Duration, message: &[u8]) -> Result<Option<Change>> {
        let time = micros(time);
        // SAFETY: the handle has a view, no other call runs, the slice lives as long as the call, and the
        // member is written by this call only.
        self.told(|handle, member| unsafe {
            raw::swimtab_view_take(handle, time, message.as_ptr(), message.len(), member)
        })
    }

    /// Tells the view the claims among the [`parts`] of a message, one by one, and returns what they changed.
    /// Parts that make no claim are passed over. A bad part refuses only itself: its error comes in its place.
    /// What the loop does not reach is not told.
    ///
    /// ```
    /// use std::time::Duration;
    /// use swimtab::{alive_of, compound, suspect_of, Details, Event, View};
    ///
    /// let mut view = View::open(Duration::from_secs(30))?;
    /// let alive = alive_of(b"b", &Details::new(([10, 0, 0, 2], 7946)))?;
    /// let packet = compound(&[alive, suspect_of(b"c", b"b", 1)?])?;
    /// let mut events = Vec::new();
    /// for change in view.take_parts(Duration::ZERO, &packet) {
    ///     events.push(change?.event);
    /// }
    /// assert_eq!(events, [Event::Joined, Event::Suspected]);
    /// # Ok::<(), swimtab::Error>(())
    /// ```
    pub fn take_parts<'a>(
        &'a mut self,
        time: Duration,
        message: &'a [u8],
    ) -> impl Iterator<Item = Result<Change>> + 'a {
        let claims =
            parts(message).filter(|part| matches!(part.kind, Kind::Alive | Kind::Suspect | Kind::Dead));
        claims.filter_map(move |part| self.take(time, &part).transpose())
    }

    /// Tells the view the records of a push/pull stream that came at this time, one by one, and returns what
    /// they changed. What the loop does not reach is not told. An error, which only `Memory` is, ends it; the
    /// stream may be merged again.
    ///
    /// ```
    /// use std::time::Duration;
    /// use swimtab::{Details, Event, Form, Node, View};
    ///
    /// let node = Node::open(b"a", &Details::new(([10, 0, 0, 1], 7946)))?;
    /// let stream = node.offer(true, Form::Memberlist { user: b"" })?;
    /// let mut view = View::open(Duration::from_secs(30))?;
    /// for change in view.merge(Duration::ZERO, &stream)? {
    ///     assert_eq!(change?.event, Event::Known);
    /// }
    /// assert_eq!(view.len(), 1);
    /// # Ok::<(), swimtab::Error>(())
    /// ```
    ///
    /// # Errors
    ///
    /// The fault at which reading the stream stops: `Ended` if the bytes end before it does, after which more
    /// may help; `Memory`. Then nothing was told.
    pub fn merge<'a>(
        &'a mut self,
        time: Duration,
        stream: &'a [u8],
    ) -> Result<impl Iterator<Item = Result<Change>> + 'a> {
        Progress::new().whole(stream)?.ok_or(Error::Ended)?;
        let (time, mut progress, mut is_over) = (micros(time), raw::Progress::default(), false);
        Ok(iter::from_fn(move || {
            while !is_over {
                // SAFETY: as in take, and of the progress.
                let told = self.told(|handle, member| unsafe {
                    raw::swimtab_view_merge(
                        handle,
                        time,
                        &mut progress,
                        stream.as_ptr(),
                        stream.len(),
                        member,
                    )
                });
                is_over = told.is_err();
                match told {
                    Ok(None) | Err(Error::NoItem) => (),
                    told => return told.transpose(),
                }
            }
            None
        }))
    }

    /// Forgets the members that at this time have been dead, or have left, for longer than the wait, and
    /// returns how many these are. memberlist does it at the end of each round of its probes.
    pub fn forget(&mut self, time: Duration) -> usize {
        // SAFETY: the handle has a view, and no other call runs.
        unsafe { raw::swimtab_view_forget(self.handle.get(), micros(time)) }
    }

    /// How many members the view shows, those that died or left included.
    pub fn len(&self) -> usize {
        // SAFETY: as in forget.
        unsafe { raw::swimtab_view_count(self.handle.get()) }
    }

    /// Whether the view shows nobody.
    pub fn is_empty(&self) -> bool {
        self.len() == 0
    }

    /// The member of this name.
    ///
    /// # Errors
    ///
    /// `Memory`.
    pub fn find(&self, name: &[u8]) -> Result<Option<Shown>> {
        // SAFETY: the handle has a view, no other call runs, the slice lives as long as the call, and the
        // member is written by this call only.
        self.shown(|handle, member| unsafe {
            raw::swimtab_view_find(handle, name.as_ptr(), name.len(), member)
        })
    }

    /// The first member whose name is above this one in byte order. So a walk over all members goes on where
    /// it was, whatever changes in between; it begins with an empty name.
    ///
    /// # Errors
    ///
    /// `NameTooLong` if the name has more than 1,024 bytes; `Memory`.
    pub fn after(&self, name: &[u8]) -> Result<Option<Shown>> {
        // SAFETY: as in find.
        self.shown(|handle, member| unsafe {
            raw::swimtab_view_after(handle, name.as_ptr(), name.len(), member)
        })
    }

    /// All members, in the byte order of their names. An error can only be `Memory`, and ends it.
    pub fn iter(&self) -> impl Iterator<Item = Result<Shown>> + '_ {
        let mut last = Some(Vec::new());
        iter::from_fn(move || {
            let shown = self.after(&last.take()?).transpose()?;
            last = shown.as_ref().ok().map(|member| member.name.clone());
            Some(shown)
        })
    }

    /// The names of the members that suspect the member of this name, in the order in which they were heard.
    ///
    /// # Errors
    ///
    /// `NoMember` if the view does not show it; `Memory`.
    pub fn accusers(&self, name: &[u8]) -> Result<Vec<Vec<u8>>> {
        let mut names = Vec::new();
        loop {
            let accuser = written(64, |out, len| {
                // SAFETY: as in find, and `out` has room for `len` bytes.
                unsafe {
                    raw::swimtab_view_accuser(
                        self.handle.get(),
                        name.as_ptr(),
                        name.len(),
                        names.len(),
                        out,
                        len,
                    )
                }
            });
            match accuser {
                Err(Error::NoItem) => return Ok(names),
                accuser => names.push(accuser?),
            }
        }
    }

    /// What the view shows as a push/pull stream for memberlist, with this user state at its end, which may be
    /// empty. Members without sound versions are left out, and those in the state
    /// [`Noted`](crate::State::Noted). A reply is the same stream, from before the other side's stream was
    /// merged.
    ///
    /// # Errors
    ///
    /// `UserTooLong`, `TooManyRecords`, `Memory`.
    pub fn offer(&self, join: bool, user: &[u8]) -> Result<Vec<u8>> {
        owned(|buffer| {
            // SAFETY: the handle has a view, no other call runs, and what is passed lives during the call.
            unsafe { raw::swimtab_view_offer(self.handle.get(), join, user.as_ptr(), user.len(), buffer) }
        })
    }

    fn told(
        &mut self,
        call: impl FnOnce(*mut raw::View, *mut raw::ViewData) -> raw::Told,
    ) -> Result<Option<Change>> {
        let mut member = raw::ViewData::zeroed();
        let told = call(self.handle.get(), &mut member);
        done(told.status)?;
        Ok(Event::of(told.event).map(|event| Change { event, member: Shown::from(&member) }))
    }

    fn shown(&self, call: impl FnOnce(*mut raw::View, *mut raw::ViewData) -> u32) -> Result<Option<Shown>> {
        let mut member = raw::ViewData::zeroed();
        match call(self.handle.get(), &mut member) {
            DONE => Ok(Some(Shown::from(&member))),
            NO_MEMBER => Ok(None),
            status => Err(Error::of(status)),
        }
    }
}

/// A time in microseconds.
fn micros(time: Duration) -> u64 {
    time.as_micros().try_into().unwrap_or(u64::MAX)
}

impl Drop for View {
    fn drop(&mut self) {
        // SAFETY: no other call runs. An empty handle, as after a refused `open`, is fine.
        unsafe { raw::swimtab_view_close(self.handle.get()) };
    }
}

impl fmt::Debug for View {
    fn fmt(&self, f: &mut fmt::Formatter<'_>) -> fmt::Result {
        f.debug_struct("View").field("members", &self.len()).finish_non_exhaustive()
    }
}
