use std::{error::Error, fmt};

/// Why a call was refused. A refused call has changed nothing.
///
/// Each case has the [number](Refused::number) that the calls for C answer, and of the numbers that apply a call gives
/// the lowest, but for 10 to 14, which come before 1; 15 stands in the place of 7. Number 5 has several cases, by what
/// was wrong: the length of a list, the band, the grid of a second table, or a recorded list.
///
/// ```
/// use seluvava::{Grid, Lent, Refused, Table};
///
/// let refused = Grid::new(16, 33, 16).unwrap_err();
/// assert_eq!(refused, Refused::GridSize);
/// assert_eq!(refused.number(), 1);
/// assert_eq!(refused.to_string(), "refused 1: a grid size is none of 2, 4, 8, 16, 32, 64, 128");
///
/// let refused = Table::from_numbers(Grid::rgb(), vec![0; 7]).unwrap_err();
/// assert_eq!(refused, Refused::Length(Lent::Numbers));
/// assert_eq!(refused.number(), 5);
/// assert_eq!(refused.to_string(), "refused 5: the numbers are not five for each bin of the grid");
/// # Ok::<(), Refused>(())
/// ```
#[derive(Debug, Clone, Copy, PartialEq, Eq, Hash)]
#[non_exhaustive]
pub enum Refused {
    /// 1: a grid size is none of 2, 4, 8, 16, 32, 64, 128.
    GridSize,
    /// 2: the number of colours that a cut is to have at most is outside 1 to 256.
    PaletteSize,
    /// 3: the colour bytes are not a multiple of three.
    StrayBytes,
    /// 4: weights are given, and not one per colour.
    Weights,
    /// 5: a list is not as long as it has to be: which, and how long that is, its own cases say.
    Length(Lent),
    /// 5: a band reaches past the frame, or ends before it starts.
    Band,
    /// 5: a second table is of another grid than the first.
    OtherGrid,
    /// 5: a recorded list has an entry of no kind that there is, or a reload with colours.
    Entry,
    /// 5 alone, as [`from_number`](Refused::from_number) has it: one of the four cases before. No call gives it.
    Five,
    /// 6: a table is not sound.
    Unsound,
    /// 7: the total after a load, a merge or a batch would pass 4,294,967,295.
    Total,
    /// 8: a table with total 0 is to be cut.
    Empty,
    /// 9: some entry of the map is not below the number of colours of the palette.
    MapEntry,
    /// 10: the header of a PPM is malformed.
    PpmHeader,
    /// 11: the maximum of a PPM is not 255.
    PpmMaximum,
    /// 12: a PPM has more or fewer bytes of pixels than its header says.
    PpmLength,
    /// 13: an interval is outside 1 to 4,096.
    Interval,
    /// 14: the interval of a batch is not the one in force.
    NotInForce,
    /// 15: the total of a narrow table after a load or a merge, or made of a table, would pass 16,843,008.
    NarrowTotal,
}

/// A list whose length was refused.
#[derive(Debug, Clone, Copy, PartialEq, Eq, Hash)]
#[non_exhaustive]
pub enum Lent {
    /// The numbers of a table: five for each bin of the grid.
    Numbers,
    /// The sums of a narrow table: four for each bin.
    Sums,
    /// The squares of a narrow table: one for each bin.
    Squares,
    /// The entries of a colour map: one for each bin.
    MapEntries,
    /// A palette: 1 to 256 colours.
    Palette,
    /// The indices of a frame: one for each pixel.
    Indices,
    /// The numbers of a palette's colours in a terminal: at least one for each colour.
    TerminalNumbers,
    /// The entries of a recorded list: three numbers each.
    Entries,
    /// The colours of a recorded list: those of its batches, refused ones too, and no more.
    Colours,
    /// The weights of a recorded list: one for each of these colours.
    RecordedWeights,
    /// The answers of a replay: at least one for each entry.
    Answers,
}

impl Refused {
    /// Each number once, from 1 on.
    const ALL: [Refused; 15] = [
        Refused::GridSize,
        Refused::PaletteSize,
        Refused::StrayBytes,
        Refused::Weights,
        Refused::Five,
        Refused::Unsound,
        Refused::Total,
        Refused::Empty,
        Refused::MapEntry,
        Refused::PpmHeader,
        Refused::PpmMaximum,
        Refused::PpmLength,
        Refused::Interval,
        Refused::NotInForce,
        Refused::NarrowTotal,
    ];

    /// The number of the refusal.
    #[must_use]
    pub const fn number(self) -> u8 {
        match self {
            Refused::GridSize => 1,
            Refused::PaletteSize => 2,
            Refused::StrayBytes => 3,
            Refused::Weights => 4,
            Refused::Length(_)
            | Refused::Band
            | Refused::OtherGrid
            | Refused::Entry
            | Refused::Five => 5,
            Refused::Unsound => 6,
            Refused::Total => 7,
            Refused::Empty => 8,
            Refused::MapEntry => 9,
            Refused::PpmHeader => 10,
            Refused::PpmMaximum => 11,
            Refused::PpmLength => 12,
            Refused::Interval => 13,
            Refused::NotInForce => 14,
            Refused::NarrowTotal => 15,
        }
    }

    /// The refusal with this number, of which 5 does not say what was wrong. No other numbers than 1 to 15 have one; 0
    /// is what a call that is done answers.
    ///
    /// ```
    /// use seluvava::Refused;
    ///
    /// assert_eq!(Refused::from_number(6), Some(Refused::Unsound));
    /// assert_eq!(Refused::from_number(5), Some(Refused::Five));
    /// assert_eq!(Refused::from_number(0), None);
    /// ```
    #[must_use]
    pub fn from_number(number: u8) -> Option<Refused> {
        Refused::ALL
            .into_iter()
            .find(|refused| refused.number() == number)
    }

    /// What a call's number says.
    ///
    /// Panics at a number of no meaning, which no caller can bring about: the archive would be another's.
    pub(crate) fn unless_done(number: u8) -> Result<(), Refused> {
        match Refused::from_number(number) {
            Some(refused) => Err(refused),
            None => {
                assert_eq!(number, 0, "the archive is not the one of this crate");
                Ok(())
            }
        }
    }

    /// The refusal of a call that knows what 5 means of what it was lent; any other number stays.
    pub(crate) fn or(self, wrong: impl FnOnce() -> Refused) -> Refused {
        match self {
            Refused::Five => wrong(),
            refused => refused,
        }
    }
}

impl fmt::Display for Refused {
    fn fmt(&self, f: &mut fmt::Formatter<'_>) -> fmt::Result {
        let reason = match self {
            Refused::GridSize => "a grid size is none of 2, 4, 8, 16, 32, 64, 128",
            Refused::PaletteSize => "the number of colours asked for is outside 1 to 256",
            Refused::StrayBytes => "the colour bytes are not a multiple of three",
            Refused::Weights => "weights are given, and not one per colour",
            Refused::Length(lent) => lent.wrong(),
            Refused::Band => "the band reaches past the frame, or ends before it starts",
            Refused::OtherGrid => "the second table is of another grid",
            Refused::Entry => {
                "an entry of the recorded list is of no kind, or a reload with colours"
            }
            Refused::Five => {
                "a lent length is wrong, a band reaches past the frame, or a recorded list is malformed"
            }
            Refused::Unsound => "a table is not sound",
            Refused::Total => "the total would pass 4,294,967,295",
            Refused::Empty => "the table to be cut has total 0",
            Refused::MapEntry => "an entry of the map is not below the palette's length",
            Refused::PpmHeader => "the header of a PPM is malformed",
            Refused::PpmMaximum => "the maximum of a PPM is not 255",
            Refused::PpmLength => "a PPM has more or fewer bytes of pixels than its header says",
            Refused::Interval => "an interval is outside 1 to 4,096",
            Refused::NotInForce => "the interval of a batch is not the one in force",
            Refused::NarrowTotal => "the total of a narrow table would pass 16,843,008",
        };
        write!(f, "refused {}: {reason}", self.number())
    }
}

impl Lent {
    /// What is wrong with its length.
    const fn wrong(self) -> &'static str {
        match self {
            Lent::Numbers => "the numbers are not five for each bin of the grid",
            Lent::Sums => "the sums are not four for each bin of the grid",
            Lent::Squares => "the squares are not one for each bin of the grid",
            Lent::MapEntries => "the entries of the map are not one for each bin of the grid",
            Lent::Palette => "the palette does not have 1 to 256 colours",
            Lent::Indices => "the indices are not one for each pixel of the frame",
            Lent::TerminalNumbers => "the list of numbers is shorter than the palette",
            Lent::Entries => "the entries of the recorded list are not three numbers each",
            Lent::Colours => "the recorded colours are not as many as the batches have",
            Lent::RecordedWeights => {
                "the recorded weights are not as many as the batches have colours"
            }
            Lent::Answers => "there are fewer answers than entries of the recorded list",
        }
    }
}

impl Error for Refused {}
