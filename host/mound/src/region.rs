//! A queue in lent bytes, by safe calls.

use core::borrow::Borrow;
use core::fmt;

use crate::words::word;
use crate::{calls, Damage, Permission, Refusal, Run, Served, Shape, Turn};

/// Words of a thread's record.
const PERMISSION: usize = 0;
const PLACE: usize = 1;
/// The place of a thread that has no operation.
const IDLE: u32 = 0;

/// A queue in bytes that the host lends for as long as this value lives.
///
/// It comes from [`Region::layout`], which starts an empty queue, from [`Region::open`], which goes
/// on with the bytes that an earlier region left, or from [`Region::convert`], which carries over
/// bytes of the old form. Whichever it is, the bytes are a readable region.
/// They stay one, since nobody else can write them meanwhile and every call leaves them readable.
/// So no call of a region is refused as [`Refusal::Unreadable`], though a turn inside a run may be.
pub struct Region<'a> {
    bytes: &'a mut [u8],
}

impl<'a> Region<'a> {
    /// Lays `bytes` out for an empty queue, with a permission for each thread. What the bytes held
    /// before does not matter.
    ///
    /// Cost: each byte is written; at most 99,336 of them. No memory is allocated.
    ///
    /// ```
    /// use mound::{Permission, Refusal, Region, Shape};
    ///
    /// let shape = Shape { depth: 1, cells: 1, threads: 1, threshold: 1 };
    /// let mut bytes = [0xff; 196];
    /// let refused = Region::layout(&mut bytes[..192], shape, &[Permission::PUT]);
    /// assert_eq!(refused.unwrap_err(), Refusal::RegionLength);
    /// assert_eq!(bytes, [0xff; 196]);
    ///
    /// let region = Region::layout(&mut bytes, shape, &[Permission::PUT])?;
    /// assert_eq!(region.check(), Ok(()));
    /// # Ok::<(), Refusal>(())
    /// ```
    ///
    /// # Errors
    ///
    /// In this order, and with no byte changed:
    /// - [`Refusal::Shape`] for a shape out of range, or other than one permission a thread;
    /// - [`Refusal::RegionLength`] where `bytes` is not of [`Shape::byte_len`] bytes.
    pub fn layout(
        bytes: &'a mut [u8],
        shape: Shape,
        permissions: &[Permission],
    ) -> Result<Region<'a>, Refusal> {
        let Shape { depth, cells, threads, threshold } = shape;
        // One permission more than the most threads is enough to be refused for.
        let mut values = [0; Shape::LARGEST.threads as usize + 1];
        let listed = values.len().min(permissions.len());
        for (value, permission) in values.iter_mut().zip(permissions) {
            *value = permission.value();
        }
        let number = calls::layout(bytes, depth, cells, threads, threshold, &values[..listed]);
        Refusal::result_of(number).map(|()| Region { bytes })
    }

    /// Goes on with the bytes that an earlier region left, after a check that they are readable:
    /// their length is that of their first words, and every field is in its range.
    ///
    /// That the least item leaves first, and that none is lost, is promised of bytes that were laid
    /// out and since then written by calls alone. The check does not tell whether they were: of
    /// other readable bytes, calls and turns do what is defined for them and leave them readable,
    /// but items may come in any order.
    ///
    /// Cost: that of [`Region::check`].
    ///
    /// ```
    /// use mound::{Permission, Refusal, Region, Shape};
    ///
    /// let shape = Shape { depth: 2, cells: 2, threads: 2, threshold: 1 };
    /// let mut bytes = vec![0; shape.byte_len()?];
    /// Region::layout(&mut bytes, shape, &[Permission::PUT; 2])?;
    ///
    /// let mut kept = bytes.clone();
    /// let mut region = Region::open(&mut kept)?;
    /// region.put(1, 5, 9)?;
    ///
    /// let damage = Region::open(&mut bytes[..380]).unwrap_err();
    /// assert_eq!(damage.to_string(), "the length in bytes is 380, not 384");
    /// # Ok::<(), Refusal>(())
    /// ```
    ///
    /// # Errors
    ///
    /// [`Damage`] where the bytes are no readable region: the first thing that is wrong with them.
    pub fn open(bytes: &'a mut [u8]) -> Result<Region<'a>, Damage> {
        match Damage::of(bytes) {
            None => Ok(Region { bytes }),
            Some(damage) => Err(damage),
        }
    }

    /// Carries a region of the old form over to `bytes`, and goes on with these: `old` as an earlier
    /// version of this library left it, with counters of one word. Each value is the same, and each
    /// operation under way goes on where it stands; the high words of the counters are 0. `old` stays
    /// as it is, and what `bytes` held before does not matter.
    ///
    /// From then on each call answers as that version would have answered it on `old`, as long as
    /// that refuses no turn as [`Refusal::CounterSpent`]: old counters end at 2^32 − 1.
    ///
    /// Cost: that of [`Region::check`] for `old`, and each byte of `bytes` is written. No memory is
    /// allocated.
    ///
    /// ```
    /// use mound::{Permission, Refusal, Region, Shape};
    ///
    /// // The smallest region of the old form: each word of its heading is 1, its thread may put.
    /// let mut old = vec![0; 180];
    /// (0..6).for_each(|word| old[4 * word] = 1);
    /// old[4 * 12] = 1;
    ///
    /// let shape = Shape::of_region(&old)?;
    /// let mut bytes = vec![0; shape.byte_len()?];
    /// let mut region = Region::convert(&old, &mut bytes)?;
    /// assert_eq!(region.permission(1), Ok(Permission::PUT));
    /// region.put(1, 5, 9)?;
    /// # Ok::<(), Refusal>(())
    /// ```
    ///
    /// # Errors
    ///
    /// In this order, and with no byte changed:
    /// - [`Refusal::Unreadable`] where `old` is no readable region of the old form;
    /// - [`Refusal::RegionLength`] where `bytes` is not of [`Shape::byte_len`] bytes, for the shape
    ///   that [`Shape::of_region`] tells of `old`.
    pub fn convert(old: &[u8], bytes: &'a mut [u8]) -> Result<Region<'a>, Refusal> {
        Refusal::result_of(calls::convert(old, bytes)).map(|()| Region { bytes })
    }

    /// Begins a put of an item by a thread, counted from 1. The item is in the queue when a turn of
    /// the thread answers so; until then it only has its cell.
    ///
    /// In a region that was laid out, a put begun when the tree has its greatest depth D is
    /// inserted within 2^D + 7 accesses, whatever the choices, as long as no other operation is
    /// begun, no other thread's turn changes the region, its permission is kept and no turn is
    /// refused.
    ///
    /// Cost: that of [`Region::check`], then the thread's record, one cell and the first free cell
    /// are written.
    ///
    /// ```
    /// use mound::{Permission, Refusal, Region, Shape};
    ///
    /// let shape = Shape { depth: 1, cells: 1, threads: 2, threshold: 1 };
    /// let mut bytes = vec![0; shape.byte_len()?];
    /// let mut region = Region::layout(&mut bytes, shape, &[Permission::PUT; 2])?;
    /// region.put(1, 5, 9)?;
    /// assert_eq!(region.put(1, 6, 9), Err(Refusal::Busy));
    /// assert_eq!(region.put(2, 6, 9), Err(Refusal::NoFreeCell));
    /// # Ok::<(), Refusal>(())
    /// ```
    ///
    /// # Errors
    ///
    /// In this order, and with no byte changed:
    /// - [`Refusal::Thread`] where there is no such thread;
    /// - [`Refusal::Item`] for a key of 4,294,967,295 or a tag above 65,535;
    /// - [`Refusal::Permission`] where the thread's list lacks put;
    /// - [`Refusal::Busy`] where the thread has begun an operation that has not ended;
    /// - [`Refusal::NoFreeCell`] where items, begun puts and lists' items in hand use all cells.
    pub fn put(&mut self, thread: u32, key: u32, tag: u32) -> Result<(), Refusal> {
        Refusal::result_of(calls::put(self.bytes, thread, key, tag))
    }

    /// Begins a take by a thread, counted from 1. A later turn of the thread answers the item, or
    /// that the queue was empty.
    ///
    /// The item is the least that the queue holds when one of the take's accesses removes it: the
    /// one of the smallest key, and of equal keys the one of the smaller tag.
    ///
    /// Cost: that of [`Region::check`], then the thread's record is written.
    ///
    /// ```
    /// use mound::{Answer, Permission, Refusal, Region, Shape, Turn};
    ///
    /// let shape = Shape { depth: 2, cells: 2, threads: 2, threshold: 1 };
    /// let mut bytes = vec![0; shape.byte_len()?];
    /// let mut region =
    ///     Region::layout(&mut bytes, shape, &[Permission::PUT_AND_TAKE, Permission::NONE])?;
    /// for tag in [2, 9] {
    ///     region.put(1, 5, tag)?;
    ///     region.run([Turn { thread: 1, choice: 0 }; 9], u32::MAX)?;
    /// }
    /// region.take(1)?;
    /// let run = region.run([Turn { thread: 1, choice: 0 }; 10], u32::MAX)?;
    /// assert_eq!(run.answers().last(), Some(Answer::Took { key: 5, tag: 2 }));
    /// assert_eq!(region.take(2), Err(Refusal::Permission));
    /// # Ok::<(), Refusal>(())
    /// ```
    ///
    /// # Errors
    ///
    /// In this order, and with no byte changed:
    /// - [`Refusal::Thread`] where there is no such thread;
    /// - [`Refusal::Permission`] where the thread's list lacks take;
    /// - [`Refusal::Busy`] where the thread has begun an operation that has not ended.
    pub fn take(&mut self, thread: u32) -> Result<(), Refusal> {
        Refusal::result_of(calls::take(self.bytes, thread))
    }

    /// Begins a list by a thread, counted from 1: a take of all items that stand in the list at the
    /// queue's root. It is for threads that take work for others: their items come as a sorted
    /// batch.
    ///
    /// The items leave the queue together, when one of the list's accesses removes them; the first
    /// of them is then the least that the queue holds, and those behind it may be greater than
    /// items that stay. Turns answer moved up to that access and
    /// while the queue is put in order after it. From then on each turn of the thread answers the
    /// next item, in their order by key and then by tag, and frees its cell; with the last the
    /// thread is [idle](Region::is_idle). Or one turn answers that the queue was empty.
    ///
    /// Cost: that of [`Region::check`], then the thread's record is written.
    ///
    /// ```
    /// use mound::{Answer, Permission, Refusal, Region, Shape, Turn};
    ///
    /// let shape = Shape { depth: 2, cells: 2, threads: 2, threshold: 1 };
    /// let mut bytes = vec![0; shape.byte_len()?];
    /// let mut region =
    ///     Region::layout(&mut bytes, shape, &[Permission::PUT_AND_TAKE, Permission::NONE])?;
    /// for tag in [9, 2] {
    ///     region.put(1, 5, tag)?;
    ///     region.run([Turn { thread: 1, choice: 0 }; 4], u32::MAX)?;
    /// }
    /// region.list(1)?;
    /// let run = region.run([Turn { thread: 1, choice: 0 }; 8], u32::MAX)?;
    /// let [first, second] = [2, 9].map(|tag| Answer::Took { key: 5, tag });
    /// assert!(run.answers().skip(5).eq([first, second, Answer::Idle]));
    /// assert_eq!(region.list(2), Err(Refusal::Permission));
    /// # Ok::<(), Refusal>(())
    /// ```
    ///
    /// # Errors
    ///
    /// Those of [`Region::take`], in its order and with no byte changed; the permission is that of
    /// a take.
    pub fn list(&mut self, thread: u32) -> Result<(), Refusal> {
        Refusal::result_of(calls::list(self.bytes, thread))
    }

    /// Sets the permission of a thread, counted from 1. The thread may be busy or idle; no other
    /// byte changes.
    ///
    /// An operation needs its permission up to the access by which it takes effect: a put until its
    /// item is in the queue, a take or a list until its items are removed. A turn up to that access
    /// which finds the permission lacking makes no access and answers
    /// [`Answer::Withdrawn`](crate::Answer::Withdrawn): the thread is idle, a put's cell is free
    /// again, and the queue holds what it held. Turns of a take or a list that put the queue in
    /// order do not look at the permission. If it is back before a turn that does, the operation
    /// goes on. What has taken effect is finished without it: the items that
    /// were removed are answered, and nodes are put in order.
    ///
    /// Cost: that of [`Region::check`], then one word is written.
    ///
    /// ```
    /// use mound::{Answer, Permission, Refusal, Region, Shape, Turn};
    ///
    /// let shape = Shape { depth: 1, cells: 1, threads: 2, threshold: 1 };
    /// let mut bytes = vec![0; shape.byte_len()?];
    /// let mut region = Region::layout(&mut bytes, shape, &[Permission::PUT_AND_TAKE; 2])?;
    /// region.put(1, 5, 9)?;
    /// assert_eq!(region.put(2, 6, 9), Err(Refusal::NoFreeCell));
    ///
    /// region.permit(1, Permission::TAKE)?;
    /// let run = region.run([Turn { thread: 1, choice: 0 }; 2], u32::MAX)?;
    /// assert!(run.answers().eq([Answer::Withdrawn, Answer::Idle]));
    /// assert_eq!(region.put(1, 5, 9), Err(Refusal::Permission));
    /// region.put(2, 6, 9)?;
    /// # Ok::<(), Refusal>(())
    /// ```
    ///
    /// # Errors
    ///
    /// [`Refusal::Thread`], with no byte changed, where there is no such thread.
    pub fn permit(&mut self, thread: u32, permission: Permission) -> Result<(), Refusal> {
        Refusal::result_of(calls::permit(self.bytes, thread, permission.value().into()))
    }

    /// Serves turns in order until they end or the accesses made equal the limit; [`u32::MAX`] is
    /// no limit. The turns may be a slice, an array or any iterator.
    ///
    /// A turn of a thread that has nothing begun answers idle. One whose operation lacks its
    /// permission before it takes effect is withdrawn; see [`Region::permit`]. A turn may be
    /// refused by itself, with no byte changed: [`Refusal::Thread`] where there is no such thread,
    /// [`Refusal::Unreadable`] where its step names what does not exist, which in a region that was
    /// laid out no step does, [`Refusal::CounterSpent`] where its update meets a counter that
    /// cannot grow. The run goes on after each of these.
    ///
    /// Cost: that of [`Region::check`], then for each turn at most one access and its answer,
    /// whatever the size of the region. Memory for schedule and answers is allocated, 20 bytes a
    /// turn; see [`Region::run_into`] for loops.
    ///
    /// ```
    /// use mound::{Answer, Permission, Refusal, Region, Served, Shape, Turn};
    ///
    /// let shape = Shape { depth: 1, cells: 1, threads: 2, threshold: 1 };
    /// let mut bytes = vec![0; shape.byte_len()?];
    /// let mut region = Region::layout(&mut bytes, shape, &[Permission::TAKE; 2])?;
    /// region.take(1)?;
    ///
    /// let turns = [2, 3, 1].map(|thread| Turn { thread, choice: 0 });
    /// let run = region.run(&turns, u32::MAX)?;
    /// let answers: Vec<Answer> = run.answers().collect();
    /// assert_eq!(answers, [Answer::Idle, Answer::Refused(Refusal::Thread), Answer::Empty]);
    /// assert_eq!(run.served(), Served { turns: 3, accesses: 1 });
    /// # Ok::<(), Refusal>(())
    /// ```
    ///
    /// # Errors
    ///
    /// [`Refusal::Schedule`], with no byte changed, for more than [`Turn::MOST`] turns. No iterator
    /// is asked for more than one turn too many, so that an endless one is refused as well.
    pub fn run(
        &mut self,
        turns: impl IntoIterator<Item: Borrow<Turn>>,
        limit: u32,
    ) -> Result<Run, Refusal> {
        let mut run = Run::default();
        self.run_into(&mut run, turns, limit)?;
        Ok(run)
    }

    /// Serves turns like [`Region::run`], with answers and counts left in `run` instead of those of
    /// an earlier one. Where the run is refused, it is left with no answers.
    ///
    /// Cost: that of [`Region::run`], but memory is allocated only for more turns than `run` has
    /// held before.
    ///
    /// ```
    /// use mound::{Answer, Permission, Refusal, Region, Run, Shape, Turn};
    ///
    /// let shape = Shape { depth: 8, cells: 128, threads: 1, threshold: 2 };
    /// let mut bytes = vec![0; shape.byte_len()?];
    /// let mut region = Region::layout(&mut bytes, shape, &[Permission::PUT_AND_TAKE])?;
    /// let mut run = Run::default();
    /// for key in 0..100 {
    ///     region.put(1, key, 0)?;
    ///     let turns = [Turn { thread: 1, choice: key }; 16];
    ///     region.run_into(&mut run, &turns, u32::MAX)?;
    ///     assert!(run.answers().any(|answer| answer == Answer::Inserted));
    /// }
    /// # Ok::<(), Refusal>(())
    /// ```
    ///
    /// # Errors
    ///
    /// Those of [`Region::run`].
    pub fn run_into(
        &mut self,
        run: &mut Run,
        turns: impl IntoIterator<Item: Borrow<Turn>>,
        limit: u32,
    ) -> Result<Served, Refusal> {
        run.serve(self.bytes, turns, limit)
    }

    /// Checks once more that the region is readable, as every call but [`Region::layout`] does
    /// before its work. For bytes that are not opened there is [`Damage::of`].
    ///
    /// Cost: the words that have a range are read in order, up to the first that is out of it; the
    /// four words of the shape are looked at together, and a thread's tries and waiting levels once
    /// more behind its record's last word.
    ///
    /// # Errors
    ///
    /// [`Damage`] where it is not, which no call leads to.
    pub fn check(&self) -> Result<(), Damage> {
        Damage::of(self.bytes).map_or(Ok(()), Err)
    }

    /// The shape that it was laid out by. Cost: four words are read.
    #[must_use]
    pub fn shape(&self) -> Shape {
        Shape::named_by(self.bytes)
    }

    /// Whether a thread, counted from 1, has no operation under way, so that one can be begun.
    ///
    /// Cost: five words are read.
    ///
    /// ```
    /// use mound::{Answer, Permission, Refusal, Region, Shape, Turn};
    ///
    /// let shape = Shape { depth: 1, cells: 1, threads: 1, threshold: 1 };
    /// let mut bytes = vec![0; shape.byte_len()?];
    /// let mut region = Region::layout(&mut bytes, shape, &[Permission::PUT_AND_TAKE])?;
    /// region.put(1, 5, 9)?;
    /// while !region.is_idle(1)? {
    ///     region.run([Turn { thread: 1, choice: 0 }], u32::MAX)?;
    /// }
    /// region.list(1)?;
    /// # Ok::<(), Refusal>(())
    /// ```
    ///
    /// # Errors
    ///
    /// [`Refusal::Thread`] where there is no such thread.
    pub fn is_idle(&self, thread: u32) -> Result<bool, Refusal> {
        Ok(self.thread_word(thread, PLACE)? == IDLE)
    }

    /// The permission that a thread, counted from 1, has now. Cost: five words are read.
    ///
    /// # Errors
    ///
    /// [`Refusal::Thread`] where there is no such thread.
    pub fn permission(&self, thread: u32) -> Result<Permission, Refusal> {
        Permission::try_from(self.thread_word(thread, PERMISSION)?)
    }

    /// A word of a thread's record.
    fn thread_word(&self, thread: u32, index: usize) -> Result<u32, Refusal> {
        let record = self.shape().thread_record(thread).ok_or(Refusal::Thread)?;
        Ok(word(self.bytes, record + index))
    }

    /// The bytes, which are all there is of the queue. Cost: none.
    #[must_use]
    pub fn as_bytes(&self) -> &[u8] {
        self.bytes
    }

    /// Gives the bytes back. Cost: none.
    #[must_use]
    pub fn into_bytes(self) -> &'a mut [u8] {
        self.bytes
    }
}

/// Shows the shape, not the bytes.
impl fmt::Debug for Region<'_> {
    fn fmt(&self, f: &mut fmt::Formatter<'_>) -> fmt::Result {
        f.debug_struct("Region").field("shape", &self.shape()).finish_non_exhaustive()
    }
}
