//! Exception lists: the paper's graph with its Table 2, the document's graphs, and the words against plain search.

use crate::given::{falling, g, h, lent_bytes, rising};
use independent::chance::{Chance, Kind};
use independent::closure::Closure;
use independent::stored::encode;
use independent::{ask_all_exceptions, ask_exceptions, build_exceptions, host, open_exceptions};
use independent::{Graph, Index, Refusal, FORM_1, FORM_2};

/// The graph of document 001, figure 6, as its labels and Table 2 give it.
fn paper() -> Graph {
    let edges = [
        (0, 1),
        (0, 2),
        (1, 3),
        (1, 4),
        (2, 3),
        (2, 5),
        (3, 7),
        (4, 8),
        (5, 6),
        (6, 8),
        (7, 8),
        (7, 9),
    ];
    Graph::new(10, &edges)
}

fn numbers(graph: &Graph, orders: &[Vec<usize>]) -> Vec<u32> {
    Index::of(graph, orders).exception_numbers()
}

#[test]
fn the_paper_under_one_order_and_under_two() {
    let starts = [0, 0, 0, 2, 2, 5, 10, 15, 15, 15, 15];
    let kinds = [3, 9, 6, 14, 18, 3, 7, 9, 15, 19, 2, 6, 8, 14, 18];
    assert_eq!(
        numbers(&paper(), &[rising(10)]),
        [&[10, 15][..], &starts, &kinds].concat()
    );
    let even: Vec<u32> = kinds.iter().map(|entry| entry & !1).collect();
    assert_eq!(
        numbers(&paper(), &[rising(10), rising(10)]),
        [&[10, 15][..], &starts, &even].concat()
    );
    let both = numbers(&paper(), &[rising(10), falling(10)]);
    assert_eq!(both, [10, 3, 0, 0, 0, 0, 0, 3, 3, 3, 3, 3, 3, 6, 14, 18]);
}

#[test]
fn the_documents_graphs() {
    assert_eq!(numbers(&h(), &[rising(4)]), [4, 2, 0, 0, 0, 0, 2, 0, 4]);
    assert_eq!(numbers(&g(), &[rising(6)]), [5, 1, 0, 0, 0, 1, 1, 1, 2]);
    assert_eq!(numbers(&Graph::new(0, &[]), &[vec![]]), [0, 0, 0]);
    assert_eq!(Index::of(&paper(), &[rising(10)]).exception_bytes().len(), 112);
}

/// Contained and not listed is reached, in every index of random graphs; and no group is its own exception.
#[test]
fn what_is_contained_and_not_listed_is_reached() {
    let mut chance = Chance::new(81);
    for round in 0..300 {
        let n = chance.between(0, 14);
        let graph = chance.graph(Kind::ALL[round % Kind::ALL.len()], n);
        let d = chance.between(1, 5);
        let index = Index::of(&graph, &chance.orders(graph.n, d));
        let (closure, lists) = (Closure::of(&graph), index.exceptions());
        for (x, list) in lists.iter().enumerate() {
            assert!(list.iter().all(|e| e.place != x && (d == 1 || !e.indirect)));
            assert!(list.windows(2).all(|two| two[0].place < two[1].place));
        }
        for u in 0..graph.n {
            for v in 0..graph.n {
                let (x, y) = (index.groups.place(u), index.groups.place(v));
                let listed = lists[x].iter().any(|e| e.place == y);
                assert_eq!(index.contains(x, y) && !listed, closure.reaches(u, v));
            }
        }
    }
}

#[test]
fn refusals_in_order_and_what_they_leave() {
    let index = Index::of(&g(), &[rising(6)]);
    let (bytes, lists) = (encode(&FORM_1, &index), index.exception_bytes());
    let refused = |number, extra| Refusal { number, extra };
    let cleared = [&[0; 6][..], &lent_bytes(8)[6..]].concat();

    let (mut marks, mut out) = (lent_bytes(8), lent_bytes(40));
    assert_eq!(build_exceptions(&bytes, &mut marks, &mut out), Ok(36));
    assert_eq!(
        (&out[..36], &out[36..], &marks),
        (&lists[..], &lent_bytes(40)[36..], &cleared)
    );
    let mut short = lent_bytes(35);
    let mut marks = lent_bytes(8);
    assert_eq!(build_exceptions(&bytes, &mut marks, &mut short), Err(refused(9, 36)));
    assert_eq!((short, marks), (lent_bytes(35), cleared.clone()));

    let wide = encode(&FORM_2, &index);
    let mut unsound = bytes.clone();
    unsound[50] ^= 1;
    for (image, given, expected, after) in [
        (&bytes[..47], &lists[..], refused(10, 0), lent_bytes(8)),
        (&wide[..], &lists[..], refused(11, 2), lent_bytes(8)),
        (&unsound[..], &lists[..], refused(15, 0), cleared.clone()),
        (&bytes[..], &lists[..35], refused(20, 0), cleared.clone()),
    ] {
        let mut marks = lent_bytes(8);
        assert_eq!(open_exceptions(image, given, &mut marks), Err(expected));
        assert_eq!(marks, after);
        let mut marks = lent_bytes(8);
        assert_eq!(ask_exceptions(image, given, 9, 9, &mut marks), Err(expected));
        assert_eq!(marks, after);
    }
    let mut marks = lent_bytes(8);
    assert_eq!(open_exceptions(&bytes, &lists, &mut marks), Ok((5, 1)));
    assert_eq!(ask_exceptions(&bytes, &lists, 6, 9, &mut marks), Err(refused(14, 0)));
    assert_eq!(ask_exceptions(&bytes, &lists, 0, 9, &mut marks), Err(refused(14, 1)));
    assert_eq!(ask_exceptions(&bytes, &lists, 3, 1, &mut marks), Ok(false));
    let asked = host::ask(&bytes, 3, 4, &mut lent_bytes(8)).map(|answer| answer.yes);
    assert_eq!(ask_exceptions(&bytes, &lists, 3, 4, &mut marks), asked);

    let mut answers = vec![7; 10];
    let all = |sources: &[u32], targets: &[u32], answers: &mut [u32]| {
        ask_all_exceptions(&bytes, &lists, sources, targets, &mut lent_bytes(8), answers)
    };
    assert_eq!(all(&[3, 3], &[4], &mut answers), Err(refused(2, 0)));
    assert_eq!(all(&[3, 3, 6], &[4, 1, 0], &mut answers[..8]), Err(refused(16, 3)));
    assert_eq!(answers, [7; 10]);
    assert_eq!(all(&[3, 3, 6], &[4, 1, 0], &mut answers), Ok(3));
    assert_eq!(answers, [0, 0, 1, 0, 0, 0, 14, 0, 0, 7]);
}
