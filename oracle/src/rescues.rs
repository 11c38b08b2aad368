//! A damaged table rescued, and once more, against the rules (Rules, Rescue; Rules, Answers). The original has no such
//! call, so that every grid is one of the judge's here.
use crate::{
    buffer::{Buffer, Differs, same},
    calls::{off, resize, table_of},
    case::Case,
    damage::Damage,
    numbers::{self, LARGEST_TOTAL, keeps_bounds},
    port::{Grid, Port},
    random::Random,
    tally::Tally,
};

/// How many numbers a page of memory has, of 4,096 bytes.
const PAGE: usize = 512;

/// A table, and how long a list is lent for the reasons.
struct Rescue {
    grid: Grid,
    table: Vec<u64>,
    list: usize,
}

impl Rescue {
    fn damage(&mut self, d: &Damage, r: &mut Random) {
        let numbers = self.table.iter_mut().skip(d.place);
        match d.what {
            "number" => numbers
                .take(1)
                .for_each(|n| *n = n.wrapping_add_signed(d.value)),
            "bit" => numbers.take(1).for_each(|n| *n ^= 1 << d.value),
            "page" => numbers.take(PAGE).for_each(|n| *n = d.value as u64),
            "size" => self.grid[d.place % 3] = d.value as usize,
            "table" => resize(&mut self.table, d.value, r),
            "reasons" => self.list = off(self.list, d.value),
            other => unreachable!("{other}"),
        }
    }

    /// What is to be left. First the bins that are kept, with "the running total of the bins kept so far"; of the
    /// others each is "cleared to five zeros".
    fn told(&self) -> (Vec<u64>, Vec<u8>) {
        let (mut total, mut kept) = (0, Vec::new());
        let mut reasons = Vec::with_capacity(self.list);
        for (place, five) in self.table.chunks_exact(5).enumerate() {
            let weight = u128::from(five[0]);
            // "A bin that breaks its own bounds, or whose weight alone is above 4,294,967,295"
            if !keeps_bounds(self.grid, place, five) || weight > LARGEST_TOTAL {
                reasons.push(1);
            // "A bin that would carry the running total of the bins kept so far past 4,294,967,295"
            } else if total + weight > LARGEST_TOTAL {
                reasons.push(2);
            } else {
                reasons.push(0);
                total += weight;
                kept.push(place);
            }
        }
        let mut table = vec![0; self.table.len()];
        for place in kept {
            let five = 5 * place..5 * place + 5;
            table[five.clone()].copy_from_slice(&self.table[five]);
        }
        (table, reasons)
    }

    /// Rescues the table; where that is done, once more: "a second rescue changes no bin".
    fn rescue(&self, port: &dyn Port, r: &mut Random, tally: &mut Tally) -> Result<u8, Differs> {
        let said = numbers::rescue(self.grid, self.table.len(), self.list);
        let mut table = Buffer::of(&self.table, r);
        let mut list: Buffer<u8> = Buffer::random(self.list, r);
        let number = port.rescue(self.grid, table.lend(), list.lend());
        same("the number of a rescue", said, number)?;
        if number != 0 {
            table.unchanged("the table of a refused rescue")?;
            list.unchanged("the list of a refused rescue")?;
            return Ok(number);
        }
        let (later, reasons) = self.told();
        list.expect("reasons", 0, &reasons)?;
        table.expect("the table of a rescue", 0, &later)?;
        let sound = numbers::sound(self.grid, table.see()).is_some();
        same("whether a rescued table is sound", true, sound)?;
        reasons
            .iter()
            .for_each(|&reason| tally.count("bins", reason));
        let again = port.rescue(self.grid, table.lend(), list.lend());
        same("the number of a second rescue", 0, again)?;
        list.expect("the reasons of a second rescue", 0, &vec![0; self.list])?;
        table.unchanged("the table of a second rescue")?;
        Ok(number)
    }
}

/// Rescues the table of all colours, damaged.
pub fn rescues(
    port: &dyn Port,
    case: &Case,
    damages: &[Damage],
    tally: &mut Tally,
) -> Result<(), Differs> {
    let r = &mut Random(case.seed);
    let input = &case.input;
    let mut rescue = Rescue {
        grid: case.grid,
        table: table_of(case.grid, &input.colors, &input.weights),
        list: case.bins(),
    };
    for d in damages {
        rescue.damage(d, r);
    }
    let number = rescue.rescue(port, r, tally)?;
    tally.count("rescue", number);
    Ok(())
}
