use crate::{Lent, Refused, Table, sys};

/// Records frames of which one in so many was sampled.
///
/// A recorder has one *interval* in force, from 1 to 4,096: of that many frames one was sampled, so that each of its
/// colours stands for that many. Each batch says at which interval it was sampled. It is refused where that is not the
/// one in force, and counted with each weight multiplied by it otherwise. The recorder keeps the interval and nothing
/// else: the table is lent to each call.
///
/// ```
/// use seluvava::{Grid, Recorder, Refused, Table};
///
/// let mut table = Table::new(Grid::rgb());
/// let mut recorder = Recorder::begin(4)?;
/// recorder.record(&mut table, 4, &[[200, 30, 40], [0, 0, 0]])?;
/// assert_eq!(table.total(), 8);
///
/// // A worker that samples every frame does not get in until the recorder is told.
/// let frame = [[0, 0, 0]; 100];
/// assert_eq!(recorder.record(&mut table, 1, &frame), Err(Refused::NotInForce));
/// recorder.reload(1)?;
/// recorder.record(&mut table, 1, &frame)?;
/// assert_eq!(table.total(), 108);
/// # Ok::<(), Refused>(())
/// ```
#[derive(Debug, Clone, PartialEq, Eq, Hash)]
pub struct Recorder {
    interval: u32,
}

impl Recorder {
    /// The kind of an entry that reloads: `[Recorder::RELOAD, interval, 0]`.
    pub const RELOAD: u32 = 0;

    /// The kind of an entry that is a batch: `[Recorder::BATCH, interval, number of colours]`.
    pub const BATCH: u32 = 1;

    /// A recorder with an interval.
    ///
    /// # Errors
    ///
    /// [`Refused::Interval`] where it is outside 1 to 4,096.
    ///
    /// ```
    /// use seluvava::{Recorder, Refused};
    ///
    /// assert_eq!(Recorder::begin(4_096)?.interval(), 4_096);
    /// assert_eq!(Recorder::begin(0), Err(Refused::Interval));
    /// assert_eq!(Recorder::begin(4_097), Err(Refused::Interval));
    /// # Ok::<(), Refused>(())
    /// ```
    pub fn begin(interval: u32) -> Result<Recorder, Refused> {
        let interval = sys::begin(interval)?;
        Ok(Recorder { interval })
    }

    /// The interval in force.
    #[must_use]
    pub fn interval(&self) -> u32 {
        self.interval
    }

    /// Puts another interval in force.
    ///
    /// # Errors
    ///
    /// [`Refused::Interval`] where it is outside 1 to 4,096; the old one stays.
    pub fn reload(&mut self, interval: u32) -> Result<(), Refused> {
        self.interval = sys::reload(self.interval, interval)?;
        Ok(())
    }

    /// Adds colours that were sampled at an interval: each weighs that interval.
    ///
    /// # Errors
    ///
    /// [`Refused::Interval`] where the interval is outside 1 to 4,096, [`Refused::NotInForce`] where it is not the
    /// one in force, and those of [`Table::load`].
    pub fn record(
        &self,
        table: &mut Table,
        interval: u32,
        colours: &[[u8; 3]],
    ) -> Result<(), Refused> {
        self.record_bytes(table, interval, colours.as_flattened())
    }

    /// Adds colours that were sampled at an interval, each weight multiplied by it.
    ///
    /// # Errors
    ///
    /// [`Refused::Interval`] where the interval is outside 1 to 4,096, [`Refused::NotInForce`] where it is not the
    /// one in force, and those of [`Table::load_weighted`].
    ///
    /// ```
    /// use seluvava::{Grid, Recorder, Refused, Table};
    ///
    /// let recorder = Recorder::begin(1_000)?;
    /// let mut table = Table::new(Grid::rgb());
    /// recorder.record_weighted(&mut table, 1_000, &[[9, 9, 9]], &[4_294_967])?;
    /// assert_eq!(table.total(), 4_294_967_000);
    /// assert_eq!(
    ///     recorder.record_weighted(&mut table, 1_000, &[[9, 9, 9]], &[1]),
    ///     Err(Refused::Total)
    /// );
    /// # Ok::<(), Refused>(())
    /// ```
    pub fn record_weighted(
        &self,
        table: &mut Table,
        interval: u32,
        colours: &[[u8; 3]],
        weights: &[u32],
    ) -> Result<(), Refused> {
        self.record_bytes_weighted(table, interval, colours.as_flattened(), weights)
    }

    /// Adds the colours that bytes make, three to a colour, each of which weighs the interval.
    ///
    /// # Errors
    ///
    /// [`Refused::StrayBytes`] where the last colour is not whole, and those of [`record`](Recorder::record).
    pub fn record_bytes(
        &self,
        table: &mut Table,
        interval: u32,
        colours: &[u8],
    ) -> Result<(), Refused> {
        let (grid, numbers) = (table.grid(), table.numbers_mut());
        sys::batch(self.interval, interval, grid, numbers, colours, None)
    }

    /// Adds the colours that bytes make, three to a colour, each weight multiplied by the interval.
    ///
    /// # Errors
    ///
    /// [`Refused::StrayBytes`] where the last colour is not whole, and those of
    /// [`record_weighted`](Recorder::record_weighted).
    pub fn record_bytes_weighted(
        &self,
        table: &mut Table,
        interval: u32,
        colours: &[u8],
        weights: &[u32],
    ) -> Result<(), Refused> {
        let (grid, numbers) = (table.grid(), table.numbers_mut());
        sys::batch(
            self.interval,
            interval,
            grid,
            numbers,
            colours,
            Some(weights),
        )
    }

    /// Replays a recorded list from the interval in force on, and says of each entry whether it was refused.
    ///
    /// An entry is a reload, `[Recorder::RELOAD, interval, 0]`, or a batch, `[Recorder::BATCH, interval, number of
    /// colours]`. The colours of all batches stand one after the other in one list, and the weights in another. A
    /// refused entry changes nothing, its colours and weights are passed over, and the replay goes on. Afterwards the
    /// recorder has the interval that is then in force.
    ///
    /// The list does what [`reload`](Recorder::reload) and [`record_weighted`](Recorder::record_weighted) do one by
    /// one, and looks at the table once for all of them.
    ///
    /// # Errors
    ///
    /// Those of an entry stand in the answer: [`Refused::Interval`], [`Refused::NotInForce`], [`Refused::Total`]. The
    /// replay itself is refused by [`Refused::Entry`] where a kind is neither of the two or a reload has colours, by
    /// [`Refused::Length`] of [`Lent::Colours`] or [`Lent::RecordedWeights`] where these are not exactly those of the
    /// batches, and by [`Refused::Unsound`]. Then nothing is replayed, and the recorder keeps its interval.
    ///
    /// ```
    /// use seluvava::{Grid, Recorder, Refused, Table};
    ///
    /// let mut table = Table::new(Grid::rgb());
    /// let mut recorder = Recorder::begin(1)?;
    /// let entries = [
    ///     [Recorder::BATCH, 1, 1],
    ///     [Recorder::BATCH, 4, 2], // another interval than 1
    ///     [Recorder::RELOAD, 4, 0],
    ///     [Recorder::BATCH, 4, 1],
    /// ];
    /// let colours = [[0, 0, 0], [9, 9, 9], [9, 9, 9], [255, 255, 255]];
    /// let answers = recorder.replay(&mut table, &entries, &colours, &[30, 7, 7, 10])?;
    /// assert_eq!(answers, [Ok(()), Err(Refused::NotInForce), Ok(()), Ok(())]);
    /// assert_eq!(table.total(), 30 + 4 * 10);
    /// assert_eq!(recorder.interval(), 4);
    /// # Ok::<(), Refused>(())
    /// ```
    pub fn replay(
        &mut self,
        table: &mut Table,
        entries: &[[u32; 3]],
        colours: &[[u8; 3]],
        weights: &[u32],
    ) -> Result<Vec<Result<(), Refused>>, Refused> {
        let mut answers = vec![0; entries.len()];
        self.replay_numbers(
            table,
            entries.as_flattened(),
            colours.as_flattened(),
            weights,
            &mut answers,
        )?;
        Ok(answers.into_iter().map(Refused::unless_done).collect())
    }

    /// Replays a recorded list of plain numbers and bytes, and writes the number that each entry answers into a lent
    /// list: 0, 7, 13 or 14. Places past the entries stay.
    ///
    /// # Errors
    ///
    /// [`Refused::Length`] of [`Lent::Entries`] where the entries are not in threes, and of [`Lent::Answers`] where
    /// they are more than the answers; and those of [`replay`](Recorder::replay).
    pub fn replay_numbers(
        &mut self,
        table: &mut Table,
        entries: &[u32],
        colours: &[u8],
        weights: &[u32],
        answers: &mut [u8],
    ) -> Result<(), Refused> {
        let recorded = sys::Recorded {
            entries,
            colours,
            weights,
        };
        let room = answers.len();
        let (grid, numbers) = (table.grid(), table.numbers_mut());
        self.interval = sys::replay(self.interval, grid, numbers, &recorded, answers)
            .map_err(|refused| refused.or(|| wrong_with(&recorded, room)))?;
        Ok(())
    }
}

/// What of a recorded list was refused with 5, with room for so many answers.
fn wrong_with(recorded: &sys::Recorded<'_>, room: usize) -> Refused {
    let entries = recorded.entries.chunks_exact(3);
    let is_batch = |entry: &&[u32]| entry[0] == Recorder::BATCH;
    let is_reload = |entry: &[u32]| entry[0] == Recorder::RELOAD && entry[2] == 0;
    let batches = entries.clone().filter(is_batch);
    let colours: usize = batches.map(|entry| entry[2] as usize).sum();
    if !entries.remainder().is_empty() {
        Refused::Length(Lent::Entries)
    } else if room < entries.len() {
        Refused::Length(Lent::Answers)
    } else if !entries
        .clone()
        .all(|entry| is_batch(&entry) || is_reload(entry))
    {
        Refused::Entry
    } else if recorded.colours.len() != 3 * colours {
        Refused::Length(Lent::Colours)
    } else {
        Refused::Length(Lent::RecordedWeights)
    }
}
