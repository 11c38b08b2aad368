//! std's `BinaryHeap` against the heap rules that the port is written from, place by place, over the original's own
//! order of boxes.
use oracle::original::shared::{Cube, CubeVar};
use std::{cmp::Ordering, collections::BinaryHeap};

/// A key and a mark that tells apart elements of one key.
#[derive(Clone, Copy)]
struct Element(f64, u32);

fn element(x: &CubeVar<3>) -> Element {
    let [a, b, c] = x.0.min;
    Element(x.1, u32::from_le_bytes([a, b, c, 0]))
}

fn boxed(x: Element) -> CubeVar<3> {
    let [a, b, c, _] = x.1.to_le_bytes();
    CubeVar(
        Cube {
            min: [a, b, c],
            max: [0; 3],
        },
        x.0,
    )
}

fn order(a: Element, b: Element) -> Ordering {
    boxed(a).cmp(&boxed(b))
}

/// "the parent of p is (p − 1)/2 rounded down"; "climb while strictly greater than the parent".
fn climb(list: &mut [Element], mut p: usize) {
    while p > 0 && order(list[p], list[(p - 1) / 2]) == Ordering::Greater {
        list.swap(p, (p - 1) / 2);
        p = (p - 1) / 2;
    }
}

/// "Put in: append, then climb".
fn put_in(list: &mut Vec<Element>, x: Element) {
    list.push(x);
    let end = list.len() - 1;
    climb(list, end);
}

/// "Take out: the last element leaves the end; if others remain, it will replace place 0, whose element is the one
/// taken out. Sink a hole from 0: while both children exist, move up the right child if left ≤ right, else the left;
/// if only a left child exists, move that up. The carried element enters the hole and climbs as above."
fn take_out(list: &mut Vec<Element>) -> Option<Element> {
    let last = list.pop()?;
    if list.is_empty() {
        return Some(last);
    }
    let top = list[0];
    let mut hole = 0;
    while 2 * hole + 2 < list.len() {
        let left = 2 * hole + 1;
        let up = if order(list[left], list[left + 1]) == Ordering::Greater {
            left
        } else {
            left + 1
        };
        list[hole] = list[up];
        hole = up;
    }
    if 2 * hole + 1 < list.len() {
        list[hole] = list[2 * hole + 1];
        hole = 2 * hole + 1;
    }
    list[hole] = last;
    climb(list, hole);
    Some(top)
}

fn same(a: Element, b: Element) -> bool {
    a.0.to_bits() == b.0.to_bits() && a.1 == b.1
}

#[test]
fn places_are_those_of_the_rules() {
    let odd = [f64::INFINITY, f64::NAN, 0.0, -0.0, -1.0, f64::NEG_INFINITY];
    let (mut state, mut marks, mut steps, mut places) = (1_u64, 0, 0, 0);
    let mut next = || {
        state ^= state << 13;
        state ^= state >> 7;
        state ^= state << 17;
        state
    };
    for round in 0..2000 {
        let keys = 1 + next() % [1, 2, 5, 1000][round % 4];
        let most = 1 + (next() % 256) as usize;
        let (mut heap, mut list) = (BinaryHeap::new(), Vec::new());
        for _ in 0..600 {
            let n = next();
            if list.len() < most && n % 5 < 3 {
                let key = if n % 11 == 0 {
                    odd[(n / 11 % 6) as usize]
                } else {
                    (n / 64 % keys) as f64
                };
                marks = (marks + 1) % (1 << 24);
                heap.push(boxed(Element(key, marks)));
                put_in(&mut list, Element(key, marks));
            } else {
                match (heap.pop(), take_out(&mut list)) {
                    (None, None) => {}
                    (Some(a), Some(b)) => assert!(same(element(&a), b)),
                    _ => panic!("one of the two is empty"),
                }
            }
            assert_eq!(heap.len(), list.len());
            for (a, b) in heap.as_slice().iter().zip(&list) {
                assert!(same(element(a), *b));
            }
            steps += 1;
            places += list.len();
        }
    }
    println!("{steps} steps, {places} places");
}
