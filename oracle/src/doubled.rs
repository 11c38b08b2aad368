//! A table, and the same with all five numbers of every bin multiplied by a power of two, cut in both layouts by both
//! engines: boxes, their order, palette, map and rounds stay, and counts, remainders and spreads are multiplied. What
//! is multiplied is what the port's own cut has left, so that every grid is one of the judge's here.
use crate::{
    PaletteSize,
    answer::{Answer, Original, original},
    buffer::{Buffer, Buffers, Differs, fitting, same, slowly},
    calls::table_of,
    case::{Case, LIGHT},
    laid::Laid,
    narrow::{Table, narrow},
    numbers::{LARGEST_NARROW, place},
    port::Port,
    random::Random,
    tally::Tally,
    trees::other_numbers,
};

/// A table multiplied by 2^`power`, with what its cuts have to answer and to leave.
struct Multiplied {
    power: usize,
    table: Vec<u64>,
    answer: Answer,
}

/// The tables of one case on one port.
struct Doubled<'a> {
    port: &'a dyn Port,
    case: &'a Case,
    free: bool,
    tables: [Multiplied; 2],
}

/// What the port's own cut says of a table.
fn answer_of(
    port: &dyn Port,
    case: &Case,
    table: &[u64],
    r: &mut Random,
) -> Result<Answer, Differs> {
    let mut lent = Buffers::random(fitting(case), r);
    let answered = lent.cut(port, case.grid, case.k, table);
    same("the number of a cut", 0, answered.number)?;
    Ok(lent.left(answered))
}

impl Doubled<'_> {
    /// The colours with their weights multiplied make the table multiplied.
    fn load<T: Laid>(&self, by: &Multiplied, r: &mut Random) -> Result<(), Differs> {
        let input = &self.case.input;
        let weights: Vec<u32> = input.weights.iter().map(|w| w * (1 << by.power)).collect();
        let colours = input.colors.as_flattened();
        let mut table = T::empty(self.case.grid, r);
        let number = table.load(self.port, self.case.grid, colours, true, &weights);
        same("the number of a load", 0, number)?;
        table.holds("the table of a load", &by.table)
    }

    /// The indices of the band by the map that a cut has left, beside those of the answer.
    fn indices(&self, lent: &Buffers, answer: &Answer, r: &mut Random) -> Result<(), Differs> {
        let Case { grid, band, .. } = *self.case;
        let frame = self.case.frame_pixels();
        let mut indices = Buffer::random(frame.len(), r);
        let number = self.port.map(
            grid,
            lent.map.see(),
            answer.boxes.len(),
            frame.as_flattened(),
            indices.lend(),
            band,
        );
        same("the number of a map", 0, number)?;
        let pixels = &frame[band.first..band.first + band.pixels];
        let said: Vec<u8> = pixels.iter().map(|&c| answer.map[place(grid, c)]).collect();
        indices.expect("indices", band.first, &said)
    }

    /// One of the tables in one layout, by the engine with moments and, where the grid is light, by the slow one.
    fn cuts<T: Laid>(&self, by: &Multiplied, r: &mut Random) -> Result<(), Differs> {
        if !self.free {
            self.load::<T>(by, r)?;
        }
        let mut table = T::of_five(&by.table, [0; 2], r);
        let mut cut = |slow: bool| {
            let lent = table.cut(self.port, self.case, slow, &by.answer, r)?;
            self.indices(&lent, &by.answer, r)
        };
        cut(false)?;
        if self.case.bins() <= LIGHT {
            cut(true).map_err(slowly)?;
        }
        Ok(())
    }

    /// Both tables in one layout.
    fn held<T: Laid>(&self, r: &mut Random) -> Result<(), Differs> {
        let [as_it_is, multiplied] = &self.tables;
        self.cuts::<T>(as_it_is, r)?;
        self.cuts::<T>(multiplied, r)
            .map_err(|differs| format!("multiplied, {differs}"))
    }

    /// The table as it is, beside the original. This comes last, so that the law is held to the port alone.
    fn beside(&self, r: &mut Random) -> Result<(), Differs> {
        let Some(Original { of_table, .. }) = original(self.case.grid) else {
            return Ok(());
        };
        let [Multiplied { table, .. }, _] = &self.tables;
        let answer = of_table(table, PaletteSize::new(self.case.k).ok_or("k")?);
        Buffer::of(table, r).cut(self.port, self.case, false, &answer, r)?;
        Ok(())
    }
}

/// Cuts the table of a case as it is and multiplied by 2^`power`, in the wide layout and, where the total is still one
/// of a narrow table, in that one.
pub fn doubled(
    port: &dyn Port,
    case: &Case,
    power: usize,
    free: bool,
    tally: &mut Tally,
) -> Result<(), Differs> {
    let r = &mut Random(case.seed);
    let mut table = table_of(case.grid, &case.input.colors, &case.input.weights);
    if free {
        table = other_numbers(case.grid, &table, r);
    }
    let answer = answer_of(port, case, &table, r)?;
    tally.boxes += answer.boxes.len();
    tally.negative += usize::from(answer.boxes.iter().any(|b| b.spread < 0.0));
    tally.slowly += usize::from(case.bins() <= LIGHT);
    let multiplied = Multiplied {
        power,
        table: table.iter().map(|n| n * (1 << power)).collect(),
        answer: answer.doubled(power),
    };
    let as_it_is = Multiplied {
        power: 0,
        table,
        answer,
    };
    let doubled = Doubled {
        port,
        case,
        free,
        tables: [as_it_is, multiplied],
    };
    doubled.held::<Buffer<u64>>(r)?;
    if u128::from(case.input.total()) << power <= LARGEST_NARROW {
        tally.narrow += 1;
        doubled.held::<Table>(r).map_err(narrow)?;
    } else {
        tally.wide += 1;
    }
    doubled.beside(r)
}
