//! Recorders: intervals, batches at them, and replays held to their entries one by one.
use seluvava::{Grid, Lent, Recorder, Refused, Table};

mod common;

const INTERVALS: [u32; 9] = [0, 1, 2, 4, 7, 4_095, 4_096, 4_097, u32::MAX];

fn is_interval(interval: u32) -> bool {
    (1..=4_096).contains(&interval)
}

fn grids() -> Result<[Grid; 3], Refused> {
    Ok([Grid::rgb(), Grid::new(2, 4, 8)?, Grid::new(32, 32, 32)?])
}

/// A table whose first bin has squares and no colour.
fn unsound() -> Table {
    let grid = Grid::new(2, 2, 2).unwrap();
    let mut numbers = vec![0; grid.numbers()];
    numbers[4] = 1;
    Table::from_numbers(grid, numbers).unwrap()
}

/// A table that has room for a weight of so much.
fn with_room(room: u32) -> Table {
    let mut table = Table::new(Grid::new(2, 2, 2).unwrap());
    table
        .load_weighted(&[[9, 9, 9]], &[u32::MAX - room])
        .unwrap();
    table
}

#[test]
fn intervals() {
    for interval in (0..=5_000).chain(INTERVALS) {
        let begun = Recorder::begin(interval).map(|recorder| recorder.interval());
        let mut reloaded = Recorder::begin(7).unwrap();
        if is_interval(interval) {
            assert_eq!(begun, Ok(interval));
            assert_eq!(reloaded.reload(interval), Ok(()));
            assert_eq!(reloaded.interval(), interval);
        } else {
            assert_eq!(begun, Err(Refused::Interval));
            assert_eq!(reloaded.reload(interval), Err(Refused::Interval));
            assert_eq!(reloaded.interval(), 7);
        }
    }
}

#[test]
fn a_batch_is_a_load_with_its_weights_multiplied() -> Result<(), Refused> {
    let pixels = common::pixels(3_000);
    let weights: Vec<u32> = pixels.iter().map(|pixel| u32::from(pixel[0])).collect();
    for grid in grids()? {
        for interval in [1, 2, 100, 4_096] {
            let recorder = Recorder::begin(interval)?;
            let scaled: Vec<u32> = weights.iter().map(|weight| interval * weight).collect();
            let mut loaded = Table::new(grid);
            loaded.load_weighted(&pixels, &scaled)?;
            let mut recorded = Table::new(grid);
            recorder.record_weighted(&mut recorded, interval, &pixels, &weights)?;
            assert_eq!(recorded, loaded);

            let mut plain = Table::new(grid);
            recorder.record(&mut plain, interval, &pixels)?;
            let mut ones = Table::new(grid);
            ones.load_weighted(&pixels, &vec![interval; pixels.len()])?;
            assert_eq!(plain, ones);

            let mut bytes = Table::new(grid);
            recorder.record_bytes(&mut bytes, interval, pixels.as_flattened())?;
            assert_eq!(bytes, plain);
            recorder.record_bytes_weighted(
                &mut bytes,
                interval,
                pixels.as_flattened(),
                &weights,
            )?;
            plain.merge(&recorded)?;
            assert_eq!(bytes, plain);
        }
    }
    Ok(())
}

/// Holds a batch to its number, and table and recorder to what they were.
fn refuses(
    number: u8,
    in_force: u32,
    table: &Table,
    call: impl Fn(&Recorder, &mut Table) -> Result<(), Refused>,
) {
    let recorder = Recorder::begin(in_force).unwrap();
    let mut later = table.clone();
    let refused = call(&recorder, &mut later).unwrap_err();
    assert_eq!(refused.number(), number);
    assert_eq!(&later, table);
    assert_eq!(recorder.interval(), in_force);
}

#[test]
fn refused_batches() {
    let table = with_room(1_000);
    let black = [[0, 0, 0]];
    for interval in INTERVALS.into_iter().filter(|&interval| interval != 4) {
        let number = if is_interval(interval) { 14 } else { 13 };
        refuses(number, 4, &table, |r, t| r.record(t, interval, &black));
        refuses(number, 4, &table, |r, t| r.record(t, interval, &[]));
        // Before every other.
        refuses(number, 4, &unsound(), |r, t| {
            r.record_bytes_weighted(t, interval, &[0; 4], &[])
        });
    }
    refuses(3, 4, &table, |r, t| r.record_bytes(t, 4, &[0; 4]));
    refuses(4, 4, &table, |r, t| r.record_weighted(t, 4, &black, &[]));
    refuses(4, 4, &table, |r, t| {
        r.record_weighted(t, 4, &black, &[1, 1])
    });
    refuses(6, 4, &unsound(), |r, t| r.record(t, 4, &[]));
    refuses(7, 4, &table, |r, t| r.record_weighted(t, 4, &black, &[251]));
    refuses(7, 4_096, &table, |r, t| r.record(t, 4_096, &black));
    // 4 times this is 0 in 32 bits.
    refuses(7, 4, &table, |r, t| {
        r.record_weighted(t, 4, &black, &[1 << 30])
    });
    refuses(7, 4_096, &table, |r, t| {
        r.record_weighted(t, 4_096, &black, &[u32::MAX])
    });
    let mut full = table.clone();
    let recorder = Recorder::begin(4).unwrap();
    recorder
        .record_weighted(&mut full, 4, &black, &[250])
        .unwrap();
    assert_eq!(full.total(), u64::from(u32::MAX));
}

// ---- Replays

/// A recorded list with all that belongs to it.
#[derive(Default)]
struct List {
    entries: Vec<[u32; 3]>,
    colours: Vec<[u8; 3]>,
    weights: Vec<u32>,
}

impl List {
    /// Some two hundred entries, in the same way in every run: reloads and batches at three intervals that are one and
    /// at two that are none, and at times a batch that is too heavy.
    fn new(length: usize) -> List {
        let mut list = List::default();
        let mut pixels = common::pixels(40 * length).into_iter();
        for [chosen, size, weight] in common::pixels(length) {
            let interval = [0, 3, 3, 3, 5, 5, 4_096, 4_097][usize::from(chosen / 8 % 8)];
            if chosen % 3 == 0 {
                list.entries.push([Recorder::RELOAD, interval, 0]);
                continue;
            }
            let colours = u32::from(size % 40);
            list.entries.push([Recorder::BATCH, interval, colours]);
            list.colours.extend(pixels.by_ref().take(colours as usize));
            let weight = u32::from(weight);
            let heavy = if weight % 16 == 0 { u32::MAX } else { weight };
            list.weights.extend((0..colours).map(|_| heavy));
        }
        list
    }

    fn replay(&self, recorder: &mut Recorder, table: &mut Table) -> Answers {
        recorder.replay(table, &self.entries, &self.colours, &self.weights)
    }

    /// The entries one after the other, each with the colours and weights that belong to it.
    fn parts(&self) -> impl Iterator<Item = ([u32; 3], &[[u8; 3]], &[u32])> {
        let mut at = 0;
        self.entries.iter().map(move |&entry| {
            let part = at..at + entry[2] as usize;
            at = part.end;
            (entry, &self.colours[part.clone()], &self.weights[part])
        })
    }
}

type Answers = Result<Vec<Result<(), Refused>>, Refused>;

#[test]
fn a_replay_is_its_entries_one_by_one() -> Result<(), Refused> {
    for grid in grids()? {
        for length in [0, 1, 2, 10, 200, 201] {
            let list = List::new(length);
            let (mut recorder, mut table) = (Recorder::begin(3)?, Table::new(grid));
            let answers = list.replay(&mut recorder, &mut table)?;

            let (mut single, mut later) = (Recorder::begin(3)?, Table::new(grid));
            let mut singly = Vec::new();
            for ([kind, interval, _], colours, weights) in list.parts() {
                singly.push(match kind {
                    Recorder::RELOAD => single.reload(interval),
                    _ => single.record_weighted(&mut later, interval, colours, weights),
                });
            }
            assert_eq!((answers, recorder, table), (singly, single, later));
        }
    }
    Ok(())
}

#[test]
fn every_answer_occurs() -> Result<(), Refused> {
    let (mut recorder, mut table) = (Recorder::begin(3)?, Table::new(Grid::rgb()));
    let answers = List::new(200).replay(&mut recorder, &mut table)?;
    for number in [0, 7, 13, 14] {
        assert!(answers.contains(&Refused::from_number(number).map_or(Ok(()), Err)));
    }
    Ok(())
}

#[test]
fn split_between_two_entries() -> Result<(), Refused> {
    let list = List::new(60);
    let grid = Grid::new(4, 4, 4)?;
    let (mut recorder, mut table) = (Recorder::begin(3)?, Table::new(grid));
    let answers = list.replay(&mut recorder, &mut table)?;
    for split in 0..=list.entries.len() {
        let colours: u32 = list.entries[..split].iter().map(|entry| entry[2]).sum();
        let (entries, colours) = (list.entries.split_at(split), colours as usize);
        let (pixels, weights) = (
            list.colours.split_at(colours),
            list.weights.split_at(colours),
        );
        let (mut one, mut later) = (Recorder::begin(3)?, Table::new(grid));
        let mut both = one.replay(&mut later, entries.0, pixels.0, weights.0)?;
        both.extend(one.replay(&mut later, entries.1, pixels.1, weights.1)?);
        assert_eq!((&both, &one, &later), (&answers, &recorder, &table));
    }
    Ok(())
}

/// The accepted batches, loaded in the other order with their weights multiplied.
#[test]
fn accepted_batches_in_any_order() -> Result<(), Refused> {
    for grid in grids()? {
        let list = List::new(150);
        let (mut recorder, mut table) = (Recorder::begin(3)?, Table::new(grid));
        let answers = list.replay(&mut recorder, &mut table)?;
        let mut accepted: Vec<_> = list.parts().zip(answers).collect();
        accepted.retain(|(_, answer)| answer.is_ok());
        let mut turned = Table::new(grid);
        for (([kind, interval, _], colours, weights), _) in accepted.into_iter().rev() {
            if kind == Recorder::BATCH {
                let scaled: Vec<u32> = weights.iter().map(|weight| interval * weight).collect();
                turned.load_weighted(colours, &scaled)?;
            }
        }
        assert_eq!(turned, table);
        for k in [1, 16, 256] {
            assert_eq!(turned.cut(k)?, table.cut(k)?);
        }
    }
    Ok(())
}

/// A list that is refused as a whole, and what it is refused with.
#[test]
fn malformed_lists() {
    let batch = |colours| [Recorder::BATCH, 3, colours];
    let reload = |colours| [Recorder::RELOAD, 3, colours];
    let black = [[0; 3]; 4];
    let ones = [1; 4];
    let colours_of = Refused::Length(Lent::Colours);
    let weights_of = Refused::Length(Lent::RecordedWeights);
    let lists: &[(Refused, &[[u32; 3]], usize, usize)] = &[
        (Refused::Entry, &[[2, 3, 0]], 0, 0),
        (Refused::Entry, &[[u32::MAX, 3, 0]], 0, 0),
        (Refused::Entry, &[reload(1)], 1, 1),
        (Refused::Entry, &[reload(1), batch(0)], 1, 1),
        (colours_of, &[batch(2)], 1, 2),
        (weights_of, &[batch(2)], 2, 1),
        (colours_of, &[batch(2)], 3, 2),
        (weights_of, &[batch(2)], 2, 3),
        (colours_of, &[batch(2), batch(1)], 2, 2),
        (colours_of, &[batch(2)], 4, 4),
        (colours_of, &[], 1, 1),
        (colours_of, &[], 1, 0),
        (weights_of, &[], 0, 1),
        (colours_of, &[batch(u32::MAX)], 4, 4),
        (
            colours_of,
            &[batch(u32::MAX), batch(u32::MAX), batch(6)],
            4,
            4,
        ),
        (
            colours_of,
            &[batch(1 << 31), batch(1 << 31), batch(4)],
            4,
            4,
        ),
    ];
    for &(expected, entries, colours, weights) in lists {
        let table = with_room(1_000);
        let (mut recorder, mut later) = (Recorder::begin(3).unwrap(), table.clone());
        let refused = recorder.replay(&mut later, entries, &black[..colours], &ones[..weights]);
        assert_eq!(refused, Err(expected), "{entries:?}");
        assert_eq!(expected.number(), 5);
        assert_eq!((recorder.interval(), later), (3, table));
        // 5 comes before 6.
        let refused = recorder.replay(&mut unsound(), entries, &black[..colours], &ones[..weights]);
        assert_eq!(refused, Err(expected), "{entries:?}");
    }
    let mut recorder = Recorder::begin(3).unwrap();
    let refused = recorder.replay(&mut unsound(), &[[Recorder::RELOAD, 5, 0]], &[], &[]);
    assert_eq!((refused, recorder.interval()), (Err(Refused::Unsound), 3));
}

#[test]
fn numbers_and_answers_as_they_are_lent() -> Result<(), Refused> {
    let entries = [1, 3, 1, 0, 5, 0, 1, 3, 1, 0, 0, 0];
    let (colours, weights) = ([0, 0, 0, 9, 9, 9], [2, 2]);
    for lent in 0..8 {
        let (mut recorder, mut table) = (Recorder::begin(3)?, with_room(1_000));
        let before = table.clone();
        let mut answers = vec![99; lent];
        let replayed =
            recorder.replay_numbers(&mut table, &entries, &colours, &weights, &mut answers);
        if lent < 4 {
            assert_eq!(replayed, Err(Refused::Length(Lent::Answers)));
            assert_eq!((table, answers), (before, vec![99; lent]));
            assert_eq!(recorder.interval(), 3);
        } else {
            assert_eq!(replayed, Ok(()));
            assert_eq!(answers[..4], [0, 0, 14, 13]);
            assert!(answers[4..].iter().all(|&answer| answer == 99));
            assert_eq!(
                (recorder.interval(), table.total()),
                (5, before.total() + 6)
            );
        }
    }
    for (wrong, entries, colours) in [
        (Lent::Entries, &entries[..11], 6),
        (Lent::Entries, &entries[..10], 6),
        (Lent::Colours, &entries, 5),
    ] {
        let (mut recorder, mut table) = (Recorder::begin(3)?, with_room(1_000));
        let mut answers = [99; 4];
        let bytes = &[0; 6][..colours];
        let replayed = recorder.replay_numbers(&mut table, entries, bytes, &weights, &mut answers);
        assert_eq!((replayed, answers), (Err(Refused::Length(wrong)), [99; 4]));
    }
    Ok(())
}
