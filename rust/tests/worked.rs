//! P1 to P10, the worked cases of the port's rules, as one table, and a box with spread that cannot be cut.
use seluvava::{Cut, Grid, Refused, Table};

/// Colours to load, with weights or without, and the number that the load answers.
struct Load {
    colours: &'static [[u8; 3]],
    weights: Option<&'static [u32]>,
    number: u8,
}

/// Three sizes, what is loaded into a table of that grid, and how it is cut.
struct Case {
    name: &'static str,
    sizes: [usize; 3],
    loads: Vec<Load>,
    k: usize,
    expected: Result<Answer, u8>,
}

/// What a cut says, each box as the bounds of its red, green and blue and its spread.
#[derive(Debug, PartialEq)]
struct Answer {
    rounds: usize,
    palette: Vec<[u8; 3]>,
    counts: Vec<u32>,
    remainders: Vec<[u32; 3]>,
    boxes: Vec<([[u8; 2]; 3], f64)>,
    map: Vec<u8>,
}

fn number_of<T>(answer: &Result<T, Refused>) -> u8 {
    answer.as_ref().err().map_or(0, |refused| refused.number())
}

fn answer_of(cut: &Cut) -> Answer {
    let bounds = |min: [u8; 3], max: [u8; 3]| [0, 1, 2].map(|i| [min[i], max[i]]);
    Answer {
        rounds: cut.rounds(),
        palette: cut.palette().to_vec(),
        counts: cut.counts().to_vec(),
        remainders: cut.remainders().to_vec(),
        boxes: cut
            .boxes()
            .iter()
            .map(|x| (bounds(x.min, x.max), x.spread))
            .collect(),
        map: cut.colour_map().entries().to_vec(),
    }
}

fn run(case: &Case) -> Result<Cut, Refused> {
    let [b1, b2, b3] = case.sizes;
    let mut table = Table::new(Grid::new(b1, b2, b3)?);
    for load in &case.loads {
        let done = match load.weights {
            Some(weights) => table.load_weighted(load.colours, weights),
            None => table.load(load.colours),
        };
        assert_eq!(number_of(&done), load.number, "{}: a load", case.name);
    }
    let cut = table.cut(case.k);
    assert_eq!(table.cut_slowly(case.k), cut, "{}: slowly", case.name);
    cut
}

fn plain(colours: &'static [[u8; 3]]) -> Load {
    Load {
        colours,
        weights: None,
        number: 0,
    }
}

fn weighted(colours: &'static [[u8; 3]], weights: &'static [u32], number: u8) -> Load {
    Load {
        colours,
        weights: Some(weights),
        number,
    }
}

/// An entry so many times, one after the other.
fn entries(runs: &[(u8, usize)]) -> Vec<u8> {
    runs.iter()
        .flat_map(|&(entry, times)| vec![entry; times])
        .collect()
}

fn cases() -> Vec<Case> {
    let black_and_white = || vec![weighted(&[[0, 0, 0], [255, 255, 255]], &[1, 3], 0)];
    let reds = || vec![plain(&[[0, 0, 0], [64, 0, 0], [255, 0, 0]])];
    // Of the dark colours, both in one bin, the spread is 1 - 1/2.
    let two_dark_and_white = || vec![plain(&[[0, 0, 0], [1, 0, 0], [255, 255, 255]])];
    let dark_box_of_spread = |spread, rounds| {
        Ok(Answer {
            rounds,
            palette: vec![[0, 0, 0], [255, 255, 255]],
            counts: vec![2, 1],
            remainders: vec![[1, 0, 0], [0; 3]],
            boxes: vec![
                ([[0, 1], [0, 2], [0, 2]], spread),
                ([[1, 2], [0, 2], [0, 2]], 0.0),
            ],
            map: entries(&[(0, 4), (1, 4)]),
        })
    };
    let refused = |name, sizes, loads, k, number| Case {
        name,
        sizes,
        loads,
        k,
        expected: Err(number),
    };
    vec![
        Case {
            name: "P1",
            sizes: [2, 2, 2],
            loads: black_and_white(),
            k: 2,
            expected: Ok(Answer {
                rounds: 1,
                palette: vec![[0, 0, 0], [255, 255, 255]],
                counts: vec![1, 3],
                remainders: vec![[0; 3]; 2],
                boxes: vec![
                    ([[0, 1], [0, 2], [0, 2]], 0.0),
                    ([[1, 2], [0, 2], [0, 2]], 0.0),
                ],
                map: entries(&[(0, 4), (1, 4)]),
            }),
        },
        Case {
            name: "P2",
            sizes: [2, 2, 2],
            loads: black_and_white(),
            k: 3,
            expected: Ok(Answer {
                rounds: 2,
                palette: vec![[255, 255, 255], [0, 0, 0]],
                counts: vec![3, 1],
                remainders: vec![[0; 3]; 2],
                boxes: vec![
                    ([[1, 2], [0, 2], [0, 2]], 0.0),
                    ([[0, 1], [0, 2], [0, 2]], 0.0),
                ],
                map: entries(&[(1, 4), (0, 4)]),
            }),
        },
        Case {
            name: "P3",
            sizes: [2, 2, 2],
            loads: vec![plain(&[[10, 20, 30]])],
            k: 4,
            expected: Ok(Answer {
                rounds: 2,
                palette: vec![[10, 20, 30]],
                counts: vec![1],
                remainders: vec![[0; 3]; 1],
                boxes: vec![([[0, 2], [0, 2], [0, 2]], 0.0)],
                map: entries(&[(0, 8)]),
            }),
        },
        Case {
            name: "P4",
            sizes: [2, 2, 2],
            loads: vec![plain(&[[1, 0, 0], [2, 0, 0]])],
            k: 256,
            expected: Ok(Answer {
                rounds: 2,
                palette: vec![[1, 0, 0]],
                counts: vec![2],
                remainders: vec![[1, 0, 0]],
                boxes: vec![([[0, 2], [0, 2], [0, 2]], 0.0)],
                map: entries(&[(0, 8)]),
            }),
        },
        Case {
            name: "P5",
            sizes: [2, 2, 2],
            loads: vec![plain(&[[0, 0, 0], [0, 128, 128]])],
            k: 2,
            expected: Ok(Answer {
                rounds: 1,
                palette: vec![[0, 0, 0], [0, 128, 128]],
                counts: vec![1, 1],
                remainders: vec![[0; 3]; 2],
                boxes: vec![
                    ([[0, 2], [0, 1], [0, 2]], 0.0),
                    ([[0, 2], [1, 2], [0, 2]], 0.0),
                ],
                map: entries(&[(0, 2), (1, 2), (0, 2), (1, 2)]),
            }),
        },
        Case {
            name: "P6",
            sizes: [4, 4, 4],
            loads: vec![plain(&[[0, 0, 0], [192, 0, 0]])],
            k: 2,
            expected: Ok(Answer {
                rounds: 1,
                palette: vec![[0, 0, 0], [192, 0, 0]],
                counts: vec![1, 1],
                remainders: vec![[0; 3]; 2],
                boxes: vec![
                    ([[0, 1], [0, 4], [0, 4]], 0.0),
                    ([[1, 4], [0, 4], [0, 4]], 0.0),
                ],
                map: entries(&[(0, 16), (1, 48)]),
            }),
        },
        Case {
            name: "P7",
            sizes: [4, 2, 2],
            loads: reds(),
            k: 2,
            expected: Ok(Answer {
                rounds: 1,
                palette: vec![[32, 0, 0], [255, 0, 0]],
                counts: vec![2, 1],
                remainders: vec![[0; 3]; 2],
                boxes: vec![
                    ([[0, 2], [0, 2], [0, 2]], 2048.0),
                    ([[2, 4], [0, 2], [0, 2]], 0.0),
                ],
                map: entries(&[(0, 8), (1, 8)]),
            }),
        },
        Case {
            name: "P8",
            sizes: [4, 2, 2],
            loads: reds(),
            k: 3,
            expected: Ok(Answer {
                rounds: 2,
                palette: vec![[255, 0, 0], [0, 0, 0], [64, 0, 0]],
                counts: vec![1, 1, 1],
                remainders: vec![[0; 3]; 3],
                boxes: vec![
                    ([[2, 4], [0, 2], [0, 2]], 0.0),
                    ([[0, 1], [0, 2], [0, 2]], 0.0),
                    ([[1, 2], [0, 2], [0, 2]], 0.0),
                ],
                map: entries(&[(1, 4), (2, 4), (0, 8)]),
            }),
        },
        Case {
            name: "P9",
            sizes: [2, 2, 2],
            loads: vec![
                weighted(&[[9, 9, 9]], &[4_294_967_295], 0),
                weighted(&[[9, 9, 9]], &[1], 7),
            ],
            k: 1,
            expected: Ok(Answer {
                rounds: 0,
                palette: vec![[9, 9, 9]],
                counts: vec![4_294_967_295],
                remainders: vec![[0; 3]; 1],
                boxes: vec![([[0, 2], [0, 2], [0, 2]], f64::INFINITY)],
                map: entries(&[(0, 8)]),
            }),
        },
        Case {
            name: "a box that cannot be cut, before the loop tries",
            sizes: [2, 2, 2],
            loads: two_dark_and_white(),
            k: 2,
            expected: dark_box_of_spread(0.5, 1),
        },
        Case {
            name: "a box that cannot be cut, after the loop tried",
            sizes: [2, 2, 2],
            loads: two_dark_and_white(),
            k: 3,
            expected: dark_box_of_spread(0.0, 3),
        },
        refused("P10, total 0", [2, 2, 2], vec![], 2, 8),
        refused("P10, k = 0", [2, 2, 2], black_and_white(), 0, 2),
        refused("P10, k = 257", [2, 2, 2], black_and_white(), 257, 2),
        refused("P10, size 1 of red", [1, 2, 2], black_and_white(), 2, 1),
        refused("P10, size 1 of green", [2, 1, 2], black_and_white(), 2, 1),
        refused("P10, size 1 of blue", [2, 2, 1], black_and_white(), 2, 1),
    ]
}

#[test]
fn worked_cases() {
    for case in cases() {
        let answer = run(&case);
        let answer = answer
            .as_ref()
            .map(answer_of)
            .map_err(|refused| refused.number());
        assert_eq!(answer, case.expected, "{}", case.name);
    }
}
