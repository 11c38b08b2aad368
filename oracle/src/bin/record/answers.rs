//! What has to come of a case: the original's answer and, where a call is refused, that of the rules (Rules, Answers).
use crate::{
    cases::Case,
    lists::{self, Call, Lists, Record, front, write_cut},
    script::Script,
};
use oracle::{
    answer::{Input, original},
    numbers::{self, Lengths, bins},
    port::Band,
    stand_ins::quantette::PaletteSize,
};

/// Up to which total an input is also run pixel by pixel.
const FEW_PIXELS: u64 = 300_000;

/// What the loads leave in the lists, and the input of those that are done.
struct Loaded {
    lists: Lists,
    input: Input,
}

impl Loaded {
    /// Writes the loads of a case into a table of zeros. One that is merged is loaded into a second table of zeros.
    fn write(s: &mut Script, case: &Case) -> Self {
        let zeros = vec![0; 5 * bins(case.grid)];
        let mut all = Self {
            lists: Lists {
                table: zeros.clone(),
                ..Lists::default()
            },
            input: Input::default(),
        };
        let l = &mut all.lists;
        s.set("table", &l.table);
        for load in &case.loads {
            let weighted = load.weighted;
            let colors = &case.colors[load.from..load.end];
            l.frame = colors.as_flattened().to_vec();
            l.weights = case.weights[load.from..load.end].to_vec();
            s.set("frame", &l.frame);
            s.set("weights", &l.weights);
            let mut number;
            if load.merged {
                l.second = zeros.clone();
                s.set("second", &l.second);
                number = Call::LoadSecond { weighted }.make(s, case.grid, l);
                s.held("second", &l.second);
                if number == 0 {
                    number = Call::Merge.make(s, case.grid, l);
                }
            } else {
                number = Call::Load { weighted }.make(s, case.grid, l);
            }
            s.held("table", &l.table);
            if number == 0 {
                let ones = vec![1; colors.len()];
                all.input.colors.extend(colors);
                all.input
                    .weights
                    .extend(if weighted { &l.weights } else { &ones });
            }
        }
        all
    }
}

/// What the original says of a cut, in all that it is lent, and what of the case's colours, mapped and painted.
struct Told {
    record: Record,
    indices: Vec<u8>,
    painted: Vec<u8>,
}

/// Puts the original's answer to the input that was loaded there. Where the judge is built without the grid, the model
/// of the rules answers, which the judge's tests hold to the original.
fn told(case: &Case, input: &Input, l: &mut Lists) -> Told {
    let Some(judge) = original(case.grid) else {
        let record = lists::cut(case.grid, case.k, l);
        let index = |c: &[u8; 3]| l.map[numbers::place(case.grid, *c)];
        let indices: Vec<u8> = case.colors.iter().map(index).collect();
        let painted = indices
            .iter()
            .flat_map(|&i| l.palette.as_chunks::<3>().0[usize::from(i)]);
        return Told {
            record,
            painted: painted.collect(),
            indices,
        };
    };
    let k = PaletteSize::new(case.k).expect("k");
    let by_pixels = input.total() <= FEW_PIXELS;
    let told = (judge.told)(input, k, by_pixels, &case.colors).expect("an answer");
    assert!(told.table == l.table, "the original's table");
    let n = told.answer.boxes.len();
    l.palette[..3 * n].copy_from_slice(told.answer.palette.as_flattened());
    l.counts[..n].copy_from_slice(&told.answer.counts);
    l.remainders[..3 * n].copy_from_slice(told.answer.remainders.as_flattened());
    l.second = told.answer.moments;
    l.map = told.answer.map;
    let ends = |x: &oracle::answer::BoxSpread| {
        let [r, g, b] = [0, 1, 2].map(|d| [x.min[d], x.max[d]]);
        [r[0], r[1], g[0], g[1], b[0], b[1]]
    };
    let boxes = told.answer.boxes.iter();
    let record = Record {
        number: 0,
        rounds: told.answer.rounds,
        boxes: boxes.map(|x| (ends(x), x.spread.to_bits())).collect(),
    };
    Told {
        record,
        indices: told.frame.indices,
        painted: told.frame.painted.into_flattened(),
    }
}

/// Writes the cut of what was loaded. Palette, counts and remainders are longer than any k needs.
fn write_answer(s: &mut Script, case: &Case, input: &Input, l: &mut Lists) -> Option<Told> {
    l.second = vec![6; 5 * bins(case.grid)];
    l.palette = vec![201; 780];
    l.counts = vec![77; 260];
    l.remainders = vec![55; 780];
    l.map = vec![99; bins(case.grid)];
    s.set("second", &l.second);
    s.set("palette", &l.palette);
    s.set("counts", &l.counts);
    s.set("left", &l.remainders);
    s.set("map", &l.map);
    let lent = Lengths {
        work: Some(l.second.len()),
        palette: l.palette.len(),
        counts: l.counts.len(),
        remainders: l.remainders.len(),
        map: l.map.len(),
        boxes: usize::MAX,
        spreads: usize::MAX,
    };
    let number = numbers::cut(case.grid, case.k, &l.table, lent);
    let told = (number == 0).then(|| told(case, input, l));
    let none = Record::refused(number);
    let record = told.as_ref().map_or(&none, |t| &t.record);
    write_cut(s, case.grid, case.k, record);
    s.held("table", &l.table);
    s.held("second", &l.second);
    s.held("palette", &l.palette);
    s.held("counts", &l.counts);
    s.held("left", &l.remainders);
    s.held("map", &l.map);
    told
}

/// Writes a case and all that has to come of it: its loads, its cut, and a map and a paint of its own colours.
pub fn write(s: &mut Script, case: &Case) {
    s.case(&case.of);
    let Loaded { mut lists, input } = Loaded::write(s, case);
    let l = &mut lists;
    let told = write_answer(s, case, &input, l);
    let (boxes, pixels) = (
        told.as_ref().map_or(0, |t| t.record.boxes.len()),
        case.colors.len(),
    );
    l.frame = case.colors.as_flattened().to_vec();
    l.indices = vec![88; pixels];
    s.set("frame", &l.frame);
    s.set("indices", &l.indices);
    let band = Band { first: 0, pixels };
    Call::Map {
        colours: boxes,
        band,
    }
    .make(s, case.grid, l);
    s.held("indices", &l.indices);
    front(s, boxes, &mut l.palette);
    Call::Paint { band }.make(s, case.grid, l);
    s.held("frame", &l.frame);
    if let Some(t) = told {
        assert!(l.indices == t.indices, "the original's indices");
        assert!(l.frame == t.painted, "the original's painted pixels");
    }
}
