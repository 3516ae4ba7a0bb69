//! The watcher: a record that judges each event as it happens.

use core::mem::{align_of, offset_of, size_of};

use crate::{placeless, raw, Event, Refusal, MAX_THREADS, WATCHER_SIZE};

/// A record that judges each event as it happens, as the plain readers-writer
/// lock of `check` would judge the history so far, however long that is.
///
/// It holds the number of threads, how many of them are in shared and in
/// exclusive, and each thread's place in its round. It is bytes alone, in the
/// layout of the header's `wospinzo_watcher`, and is tested whole by every
/// call.
///
/// ```
/// use wospinzo::{Event, Refusal, Watcher};
///
/// # fn main() -> Result<(), Refusal> {
/// let mut watcher = Watcher::new(2)?;
/// watcher.event(0, Event::EnterSharedCall)?;
/// watcher.event(0, Event::EnterSharedReturn)?;
/// watcher.event(1, Event::EnterExclusiveCall)?;
///
/// // Thread 0 is in shared: thread 1 may not enter exclusive.
/// let refused = watcher.event(1, Event::EnterExclusiveReturn);
/// assert_eq!(refused, Err(Refusal::Occupied));
///
/// // The watch goes on from the events before that.
/// watcher.event(0, Event::LeaveSharedCall)?;
/// watcher.event(1, Event::EnterExclusiveReturn)?;
/// assert_eq!((watcher.shared(), watcher.exclusive()), (0, 1));
/// assert_eq!(watcher.places()[..2], [3, 6]);
/// # Ok(())
/// # }
/// ```
#[derive(Clone, Debug, PartialEq, Eq, Hash)]
#[repr(C)]
pub struct Watcher {
    threads: u8,
    shared: u8,
    exclusive: u8,
    places: [u8; MAX_THREADS as usize],
}

const _: () = assert!(size_of::<Watcher>() == WATCHER_SIZE);
const _: () = assert!(align_of::<Watcher>() == 1);
const _: () = assert!(offset_of!(Watcher, shared) == 1);
const _: () = assert!(offset_of!(Watcher, exclusive) == 2);
const _: () = assert!(offset_of!(Watcher, places) == 3);

impl Watcher {
    /// Starts a watch of so many threads: every place is 0 and nobody is
    /// inside.
    ///
    /// # Errors
    ///
    /// [`Refusal::BadSize`].
    ///
    /// ```
    /// use wospinzo::{Refusal, Watcher};
    ///
    /// assert_eq!(Watcher::new(200)?.threads(), 200);
    /// assert_eq!(Watcher::new(201), Err(Refusal::BadSize));
    /// # Ok::<(), Refusal>(())
    /// ```
    pub fn new(threads: u16) -> Result<Watcher, Refusal> {
        let mut watcher = Watcher::from_bytes(&[0; WATCHER_SIZE]);
        // SAFETY: the pointer is that of one record that is lent here.
        placeless(unsafe { raw::wospinzo_watch_start(threads, &mut watcher) })?;
        Ok(watcher)
    }

    /// Tests the record, judges one event of one thread, and takes it into the
    /// record.
    ///
    /// # Errors
    ///
    /// Those of [`Watcher::event_code`]; [`Refusal::UnknownPair`] can only mean
    /// the thread.
    ///
    /// ```
    /// use wospinzo::{Event, Refusal, Watcher};
    ///
    /// let mut watcher = Watcher::new(1)?;
    /// assert_eq!(watcher.event(1, Event::EnterSharedCall), Err(Refusal::UnknownPair));
    /// assert_eq!(watcher.event(0, Event::EnterSharedReturn), Err(Refusal::NotNext));
    /// assert_eq!(watcher.event(0, Event::EnterSharedCall), Ok(()));
    /// # Ok::<(), Refusal>(())
    /// ```
    pub fn event(&mut self, thread: u16, event: Event) -> Result<(), Refusal> {
        self.event_code(thread, event as u16)
    }

    /// The same for an event's code, which may be any number.
    ///
    /// # Errors
    ///
    /// In this order: [`Refusal::BadSize`] and [`Refusal::Inconsistent`] for
    /// the record; [`Refusal::UnknownPair`], [`Refusal::NotNext`] and
    /// [`Refusal::Occupied`] for the event. The record is then unchanged.
    ///
    /// ```
    /// use wospinzo::{Refusal, Watcher};
    ///
    /// let mut watcher = Watcher::new(1)?;
    /// assert_eq!(watcher.event_code(0, 5), Ok(()));
    /// let before = watcher.clone();
    /// assert_eq!(watcher.event_code(0, 256 + 6), Err(Refusal::UnknownPair));
    /// assert_eq!(watcher, before);
    /// # Ok::<(), Refusal>(())
    /// ```
    pub fn event_code(&mut self, thread: u16, code: u16) -> Result<(), Refusal> {
        // SAFETY: as in `new`.
        placeless(unsafe { raw::wospinzo_watch_event(self, thread, code) }).map(|_| ())
    }

    /// Whether anybody is in shared or in exclusive.
    ///
    /// # Errors
    ///
    /// [`Refusal::BadSize`], [`Refusal::Inconsistent`].
    ///
    /// ```
    /// use wospinzo::{Refusal, Watcher};
    ///
    /// let mut watcher = Watcher::new(3)?;
    /// watcher.event_code(2, 5)?;
    /// assert_eq!(watcher.anybody_inside(), Ok(false));
    /// watcher.event_code(2, 6)?;
    /// assert_eq!(watcher.anybody_inside(), Ok(true));
    /// # Ok::<(), Refusal>(())
    /// ```
    pub fn anybody_inside(&self) -> Result<bool, Refusal> {
        // SAFETY: the pointer is that of one record that is only read.
        placeless(unsafe { raw::wospinzo_watch_inside(self) }).map(|inside| inside != 0)
    }

    /// The number of threads. Like the other parts, it is read without a test
    /// of the record.
    pub const fn threads(&self) -> u16 {
        self.threads as u16
    }

    /// How many threads are in shared.
    pub const fn shared(&self) -> u16 {
        self.shared as u16
    }

    /// How many threads are in exclusive.
    pub const fn exclusive(&self) -> u16 {
        self.exclusive as u16
    }

    /// Each thread's place in its round: the code of its last event, 0 before
    /// its first and after a 4 or 8, and 0 for every number that is no thread's.
    pub const fn places(&self) -> &[u8; MAX_THREADS as usize] {
        &self.places
    }

    /// A record from its bytes: the number of threads, how many are in shared
    /// and in exclusive, and the places. Nothing is tested here, and a call
    /// turns down a record that isn't consistent. A watch goes on rightly only
    /// from the bytes that its last call left.
    ///
    /// ```
    /// use wospinzo::{Refusal, Watcher};
    ///
    /// let mut watcher = Watcher::new(2)?;
    /// watcher.event_code(1, 1)?;
    /// let mut bytes = *watcher.as_bytes();
    /// assert_eq!(bytes[..6], [2, 0, 0, 0, 1, 0]);
    /// assert_eq!(Watcher::from_bytes(&bytes), watcher);
    ///
    /// bytes[1] = 1;
    /// let damaged = Watcher::from_bytes(&bytes);
    /// assert_eq!(damaged.anybody_inside(), Err(Refusal::Inconsistent));
    /// # Ok::<(), Refusal>(())
    /// ```
    pub fn from_bytes(bytes: &[u8; WATCHER_SIZE]) -> Watcher {
        let mut places = [0; MAX_THREADS as usize];
        places.copy_from_slice(&bytes[offset_of!(Watcher, places)..]);
        Watcher {
            threads: bytes[0],
            shared: bytes[1],
            exclusive: bytes[2],
            places,
        }
    }

    /// The record's bytes, to be kept and given to [`Watcher::from_bytes`].
    pub const fn as_bytes(&self) -> &[u8; WATCHER_SIZE] {
        // SAFETY: the record is so many bytes, without padding (asserted above),
        // and an array of bytes has alignment 1.
        unsafe { &*(self as *const Watcher).cast::<[u8; WATCHER_SIZE]>() }
    }
}
