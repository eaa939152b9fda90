//! A cluster's keys.

use crate::error::{done, Error, Result};
use crate::raw::{self, DONE};
use std::cell::UnsafeCell;
use std::fmt;
use std::hint;

/// The greatest length of a key in bytes.
const KEY: usize = 32;

/// A cluster's keys, or none. The first key encrypts; to decrypt, all are tried in order. Without a key, it
/// reads and writes what is not encrypted; with one it refuses to read that, as memberlist does by default,
/// unless [`accept_clear`](Keyring::accept_clear) was called. The keys are overwritten when the keyring is
/// dropped.
///
/// It may move from thread to thread, but only one uses it at a time: it is `Send`, not `Sync`.
///
/// ```
/// use swimtab::{nack, Keyring, Kind};
///
/// let mut keys = Keyring::new();
/// keys.add(&[7; 32])?;
/// let packet = keys.seal(b"dc", &nack(9)?)?;
/// assert_eq!(keys.unwrap(&packet)?.kind, Kind::Nack);
/// # Ok::<(), swimtab::Error>(())
/// ```
pub struct Keyring {
    // Like a node's handle.
    pub(crate) handle: UnsafeCell<raw::Keyring>,
}

// SAFETY: the library keeps no state per thread, and a handle may move between calls.
unsafe impl Send for Keyring {}

impl Keyring {
    /// A keyring without keys.
    pub fn new() -> Keyring {
        Keyring { handle: UnsafeCell::new(raw::Keyring::empty()) }
    }

    /// Adds a key of 16, 24 or 32 bytes after those that are there.
    ///
    /// # Errors
    ///
    /// `BadKey` if it has another length; `Memory`. Then the keyring is unchanged.
    pub fn add(&mut self, key: &[u8]) -> Result<()> {
        // SAFETY: no other call runs, and the slice lives as long as the call.
        done(unsafe { raw::swimtab_keyring_add(self.handle.get(), key.as_ptr(), key.len()) })
    }

    /// From now on, packets and streams in the clear are read too, while a cluster begins or ends to encrypt.
    ///
    /// # Errors
    ///
    /// `NoNode` if there is no key.
    pub fn accept_clear(&mut self) -> Result<()> {
        // SAFETY: no other call runs.
        done(unsafe { raw::swimtab_keyring_accept_clear(self.handle.get()) })
    }

    /// How many keys there are.
    pub fn len(&self) -> usize {
        // SAFETY: no other call runs.
        unsafe { raw::swimtab_keyring_count(self.handle.get()) }
    }

    /// Whether there is no key, so that nothing is encrypted.
    pub fn is_empty(&self) -> bool {
        self.len() == 0
    }

    /// Copies of the keys, in their order. Nothing overwrites these copies.
    pub fn keys(&self) -> Vec<Vec<u8>> {
        (0..self.len()).map(|i| self.look(i, <[u8]>::to_vec)).collect()
    }

    /// From now on this key encrypts: it and the first one change places.
    ///
    /// # Errors
    ///
    /// `NoItem` if there is no such key. Then nothing has changed.
    pub fn use_key(&mut self, key: &[u8]) -> Result<()> {
        let i = self.index(key).ok_or(Error::NoItem)?;
        // SAFETY: no other call runs.
        done(unsafe { raw::swimtab_keyring_use(self.handle.get(), i) })
    }

    /// Removes this key, each time that it was added, and overwrites it.
    ///
    /// # Errors
    ///
    /// `NoItem` if there is no such key; `KeyInUse` if it is the first one, which encrypts. Then nothing has
    /// changed.
    pub fn remove(&mut self, key: &[u8]) -> Result<()> {
        let mut next = Some(self.index(key).ok_or(Error::NoItem)?);
        while let Some(i) = next {
            // SAFETY: no other call runs.
            done(unsafe { raw::swimtab_keyring_remove(self.handle.get(), i) })?;
            next = self.index(key);
        }
        Ok(())
    }

    /// From now on this key encrypts, which is added if it is not there. A cluster changes its key so: `add`
    /// the new one on all members, then `rotate` to it on all, and then `remove` the old one on all.
    ///
    /// ```
    /// use swimtab::Keyring;
    ///
    /// let (old, new) = ([1; 16], [2; 32]);
    /// let mut keys = Keyring::new();
    /// keys.add(&old)?;
    /// keys.rotate(&new)?;
    /// assert_eq!(keys.keys(), [&new[..], &old]);
    /// keys.remove(&old)?;
    /// # Ok::<(), swimtab::Error>(())
    /// ```
    ///
    /// # Errors
    ///
    /// `BadKey` if it does not have 16, 24 or 32 bytes; `Memory`. Then nothing has changed.
    pub fn rotate(&mut self, key: &[u8]) -> Result<()> {
        if self.index(key).is_none() {
            self.add(key)?;
        }
        self.use_key(key)
    }

    /// The index of the first such key.
    fn index(&self, key: &[u8]) -> Option<usize> {
        (0..self.len()).find(|&i| self.look(i, |here| here == key))
    }

    /// What a look at the key at index `i` returns; of one that is not there nothing is seen.
    fn look<T>(&self, i: usize, see: impl FnOnce(&[u8]) -> T) -> T {
        let mut key = [0; KEY];
        // SAFETY: no other call runs, and the array lives as long as the call.
        let told = unsafe { raw::swimtab_keyring_key(self.handle.get(), i, key.as_mut_ptr(), key.len()) };
        debug_assert_eq!(told.status, DONE);
        let seen = see(&key[..told.len.min(KEY)]);
        key.fill(0);
        hint::black_box(&key); // so that the zeros are written
        seen
    }
}

impl Default for Keyring {
    fn default() -> Keyring {
        Keyring::new()
    }
}

impl Drop for Keyring {
    fn drop(&mut self) {
        // SAFETY: no other call runs. An empty handle is fine.
        unsafe { raw::swimtab_keyring_close(self.handle.get()) };
    }
}

/// It shows no key.
impl fmt::Debug for Keyring {
    fn fmt(&self, f: &mut fmt::Formatter<'_>) -> fmt::Result {
        f.debug_struct("Keyring").field("keys", &self.len()).finish_non_exhaustive()
    }
}
