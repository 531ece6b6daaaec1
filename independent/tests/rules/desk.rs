//! The rule desk's table: each state against plain search, changed vertices one at a time, the refusals in order, and what is
//! left in lent memory.

use crate::given::{built, falling, g, lent_bytes, refused, rising, words_for, WORD};
use independent::chance::{Chance, Kind};
use independent::closure::Closure;
use independent::rules::{FRESH, SUSPECT, UNKNOWN};
use independent::{settle_rules, Refusal, Rule, ORDINARY};

/// A table of these vertices and states, with rule numbers that are neither.
fn table(vertices_and_states: &[(u32, u32)]) -> Vec<Rule> {
    let numbered = vertices_and_states.iter().zip(0xfeed_0000..);
    numbered
        .map(|(&(vertex, state), rule)| Rule { rule, vertex, state })
        .collect()
}

fn states(table: &[Rule]) -> Vec<u32> {
    table.iter().map(|record| record.state).collect()
}

/// The table afterwards, by a call with so many marks and words lent: what is said, and all that was lent.
fn settled(
    index: &[u8],
    changed: &[u32],
    marks: usize,
    words: usize,
    rules: &[Rule],
) -> (Result<(), Refusal>, Vec<u8>, Vec<u32>, Vec<Rule>) {
    let (mut marks, mut words, mut rules) = (lent_bytes(marks), vec![WORD; words], rules.to_vec());
    let said = settle_rules(index, changed, &mut marks, &mut words, &mut rules);
    (said, marks, words, rules)
}

/// The same with as much lent as is needed, where nothing is refused.
fn settled_well(index: &[u8], changed: &[u32], n: usize, rules: &[Rule]) -> Vec<Rule> {
    let (said, _, _, after) = settled(index, changed, n, words_for(index).len(), rules);
    assert_eq!(said, Ok(()));
    after
}

#[test]
fn the_tables_of_g() {
    let fresh = table(&[0, 1, 2, 3, 4, 5, 6].map(|vertex| (vertex, FRESH)));
    let told: [(&[u32], [u32; 7]); 5] = [
        (&[], [0, 0, 0, 0, 0, 0, 2]),
        (&[3], [0, 0, 0, 1, 1, 0, 2]),
        (&[2], [0, 1, 1, 0, 1, 0, 2]),
        (&[5, 3, 5], [0, 0, 0, 1, 1, 1, 2]),
        (&[4, 0], [1, 1, 1, 1, 1, 0, 2]),
    ];
    for form in ORDINARY {
        let index = built(&form, &g(), &[rising(6)]);
        for (changed, told) in told {
            assert_eq!(states(&settled_well(&index, changed, 6, &fresh)), told, "{changed:?}");
        }
    }
}

#[test]
fn states_that_nothing_reaches_are_kept() {
    let rules = table(&[
        (0, SUSPECT),
        (1, UNKNOWN),
        (2, 3),
        (5, u32::MAX),
        (4, u32::MAX),
        (6, SUSPECT),
        (u32::MAX, 9),
    ]);
    for form in ORDINARY {
        let index = built(&form, &g(), &[rising(6)]);
        let after = settled_well(&index, &[3], 6, &rules);
        assert_eq!(
            states(&after),
            [SUSPECT, UNKNOWN, 3, u32::MAX, SUSPECT, UNKNOWN, UNKNOWN]
        );
        for (before, after) in rules.iter().zip(after) {
            assert_eq!((before.rule, before.vertex), (after.rule, after.vertex));
        }
    }
}

#[test]
fn each_state_by_plain_search_and_one_vertex_at_a_time() {
    let mut chance = Chance::new(151);
    for round in 0..600 {
        let n = chance.between(1, 16);
        let graph = chance.graph(Kind::ALL[round % Kind::ALL.len()], n);
        let bytes = built(&chance.one_of(&ORDINARY), &graph, &chance.orders(n, 1));
        let needed = words_for(&bytes).len();
        let closure = Closure::of(&graph);
        let mut changed: Vec<u32> = (0..chance.below(5)).map(|_| chance.below(n) as u32).collect();
        let rules: Vec<(u32, u32)> = (0..chance.below(20))
            .map(|_| (chance.below(n + 2) as u32, chance.below(5) as u32))
            .collect();
        let rules = table(&rules);
        let (said, marks, words, after) = settled(&bytes, &changed, n + 2, needed + 2, &rules);
        assert_eq!(said, Ok(()));
        assert_eq!(marks, [&vec![0; n], &lent_bytes(n + 2)[n..]].concat());
        assert_eq!(words, [vec![0; needed], vec![WORD; 2]].concat());
        for (before, after) in rules.iter().zip(&after) {
            let vertex = before.vertex as usize;
            let state = if vertex >= n {
                UNKNOWN
            } else if changed.iter().any(|&u| closure.reaches(u as usize, vertex)) {
                SUSPECT
            } else {
                before.state
            };
            assert_eq!(*after, Rule { state, ..*before }, "{changed:?}: {graph:?}");
        }
        chance.shuffle(&mut changed);
        let one_at_a_time = changed
            .iter()
            .fold(rules, |rules, &vertex| settled_well(&bytes, &[vertex], n, &rules));
        assert!(changed.is_empty() || one_at_a_time == after);
    }
}

#[test]
fn the_first_refusal_due_is_given() {
    let rules = table(&[(0, FRESH), (4, 8), (6, FRESH)]);
    for form in ORDINARY {
        let good = built(&form, &g(), &[rising(6), falling(6)]);
        let needed = words_for(&good).len();
        let numbers: Vec<u32> = [10, 11, 12, 13, 6, 14, 15]
            .into_iter()
            .filter(|&number| number != 6 || needed > 0)
            .collect();
        for due in 1_u32..1 << numbers.len() {
            let chosen: Vec<u32> = (0..numbers.len())
                .filter(|i| due >> i & 1 == 1)
                .map(|i| numbers[i])
                .collect();
            let (mut index, mut marks, mut words, mut changed) = (good.clone(), 9, needed + 1, [0, 5, 3, 1]);
            for number in chosen.iter().rev() {
                match number {
                    10 => index.truncate(47),
                    11 => index[0] = 3,
                    12 => index[8] = 7,
                    13 => marks = 5,
                    6 => words = needed - 1,
                    14 => changed = [0, 5, 6, u32::MAX],
                    _ => *index.last_mut().unwrap() ^= 1,
                }
            }
            let extra = match chosen[0] {
                11 => 3,
                13 => 6,
                6 => needed as u32,
                14 => 2,
                _ => 0,
            };
            let (said, after, left, rules_after) = settled(&index, &changed, marks, words, &rules);
            assert_eq!(said, refused(chosen[0], extra), "{chosen:?}");
            let (mut told, mut cleared) = (lent_bytes(marks), vec![WORD; words]);
            if chosen[0] == 15 {
                told[..6].fill(0);
                cleared[..needed].fill(0);
            }
            assert_eq!((after, left, rules_after), (told, cleared, rules.clone()), "{chosen:?}");
        }
    }
}
