//! Questions by the six rules, against plain search and against the walk told by recursion.

use crate::given::{built, lent_bytes, words_for, WORD};
use independent::chance::{Chance, Kind};
use independent::closure::Closure;
use independent::{ask, Index, ORDINARY};
use std::collections::BTreeSet;

fn random_index(chance: &mut Chance, round: usize, d: usize) -> (Index, Closure) {
    let n = chance.between(1, 24);
    let graph = chance.graph(Kind::ALL[round % Kind::ALL.len()], n);
    let orders = chance.orders(n, d);
    (Index::of(&graph, &orders), Closure::of(&graph))
}

/// The rules as the document words them, on one index and one target group.
struct Told<'a> {
    index: &'a Index,
    t: usize,
    opened: BTreeSet<usize>,
}

impl Told<'_> {
    fn rule_2(&self, x: usize) -> Option<u32> {
        let e = |l: usize| self.index.labellings[l].e[self.t];
        let inner = |l: usize| self.index.labellings[l].m[x]..=self.index.labellings[l].e[x];
        (0..self.index.labellings.len())
            .find(|&l| inner(l).contains(&e(l)))
            .map(|l| l as u32 + 1)
    }

    fn rule_3(&self, x: usize) -> bool {
        let above = self.index.groups.levels[x] > self.index.groups.levels[self.t];
        !above
    }

    fn rule_4(&self, x: usize) -> Option<u32> {
        let outer = |l: usize, g| self.index.labellings[l].s[g]..=self.index.labellings[l].e[g];
        let contains = |l: usize| {
            let (of_x, of_t) = (outer(l, x), outer(l, self.t));
            of_x.contains(of_t.start()) && of_x.contains(of_t.end())
        };
        (0..self.index.labellings.len())
            .find(|&l| !contains(l))
            .map(|l| l as u32 + 1)
    }

    /// Opens a group: the labelling that ended the walk below it, if any.
    fn open(&mut self, group: usize) -> Option<u32> {
        self.opened.insert(group);
        let children = self.index.groups.children[group].clone();
        children.into_iter().find_map(|child| self.try_child(child))
    }

    fn try_child(&mut self, child: usize) -> Option<u32> {
        if let Some(labelling) = self.rule_2(child) {
            return Some(labelling);
        }
        if self.opened.contains(&child) || self.rule_3(child) || self.rule_4(child).is_some() {
            return None;
        }
        self.open(child)
    }

    /// Yes or no, reason, labelling.
    fn answer(&mut self, x: usize) -> (bool, u32, u32) {
        if x == self.t {
            (true, 1, 0)
        } else if let Some(labelling) = self.rule_2(x) {
            (true, 2, labelling)
        } else if self.rule_3(x) {
            (false, 3, 0)
        } else if let Some(labelling) = self.rule_4(x) {
            (false, 4, labelling)
        } else if let Some(labelling) = self.open(x) {
            (true, 5, labelling)
        } else {
            (false, 6, 0)
        }
    }
}

#[test]
fn yes_and_no_agree_with_closure() {
    let mut chance = Chance::new(21);
    let mut seen = [0; 7];
    for round in 0..4_000 {
        let d = chance.between(1, 5);
        let (index, closure) = random_index(&mut chance, round, d);
        for u in 0..index.n() {
            for v in 0..index.n() {
                let answer = index.question(u, v).answer;
                assert_eq!(answer.yes, closure.reaches(u, v), "{index:?} {u} {v}");
                seen[answer.reason as usize] += 1;
            }
        }
    }
    assert!(seen[1..].iter().all(|&count| count > 500), "{seen:?}");
}

#[test]
fn reason_count_and_opened_follow_the_rules() {
    let mut chance = Chance::new(22);
    for round in 0..2_000 {
        let d = chance.between(1, 3);
        let (index, _) = random_index(&mut chance, round, d);
        for u in 0..index.n() {
            for v in 0..index.n() {
                let asked = index.question(u, v);
                let mut told = Told {
                    index: &index,
                    t: index.groups.place(v),
                    opened: BTreeSet::new(),
                };
                let (yes, reason, labelling) = told.answer(index.groups.place(u));
                let answer = asked.answer;
                assert_eq!((answer.yes, answer.reason, answer.labelling), (yes, reason, labelling));
                assert_eq!(answer.opened as usize, told.opened.len());
                assert_eq!(asked.opened.len(), told.opened.len());
                let names = told.opened.iter().map(|&place| index.groups.list[place]);
                assert_eq!(asked.opened.iter().copied().collect::<BTreeSet<_>>(), names.collect());
                assert_eq!(answer.opened == 0, reason < 5);
            }
        }
    }
}

#[test]
fn more_orders_never_open_more() {
    let mut chance = Chance::new(23);
    let mut fewer = 0;
    for round in 0..2_000 {
        let d = chance.between(2, 5);
        let (more, _) = random_index(&mut chance, round, d);
        let mut less = more.clone();
        for _ in 0..chance.between(1, d - 1) {
            let gone = chance.below(less.labellings.len());
            less.labellings.remove(gone);
        }
        // The positions of the orders play no part either.
        chance.shuffle(&mut less.labellings);
        for u in 0..more.n() {
            for v in 0..more.n() {
                let by_more: BTreeSet<_> = more.question(u, v).opened.into_iter().collect();
                let by_less: BTreeSet<_> = less.question(u, v).opened.into_iter().collect();
                assert!(by_more.is_subset(&by_less), "{more:?} {less:?} {u} {v}");
                fewer += usize::from(by_more.len() < by_less.len());
            }
        }
    }
    assert!(fewer > 500);
}

#[test]
fn a_no_of_the_walk_opened_all_that_rules_3_and_4_let_through() {
    let mut chance = Chance::new(24);
    for round in 0..2_000 {
        let (index, _) = random_index(&mut chance, round, 1);
        for u in 0..index.n() {
            for v in 0..index.n() {
                let asked = index.question(u, v);
                if asked.answer.reason != 6 {
                    continue;
                }
                let told = Told {
                    index: &index,
                    t: index.groups.place(v),
                    opened: BTreeSet::new(),
                };
                let let_through = |p: &usize| !told.rule_3(*p) && told.rule_4(*p).is_none();
                let kept = |list: &Vec<usize>| list.iter().copied().filter(let_through).collect();
                let next: Vec<Vec<usize>> = index.groups.children.iter().map(kept).collect();
                let reached = independent::closure::reached(&next, index.groups.place(u));
                let mut opened = asked.opened;
                opened.sort_unstable();
                let places = (0..reached.len()).filter(|&p| reached[p]);
                let names: Vec<usize> = places.map(|p| index.groups.list[p]).collect();
                assert_eq!(opened, names);
            }
        }
    }
}

#[test]
fn marks_are_the_names_of_opened_groups_and_the_words_needed_are_0() {
    let mut chance = Chance::new(25);
    for round in 0..300 {
        let n = chance.between(1, 16);
        let graph = chance.graph(Kind::ALL[round % Kind::ALL.len()], n);
        let orders = chance.orders(n, 1);
        let index = Index::of(&graph, &orders);
        for form in ORDINARY {
            let bytes = built(&form, &graph, &orders);
            let needed = words_for(&bytes).len();
            for u in 0..n {
                for v in 0..n {
                    let asked = index.question(u, v);
                    let mut marks = lent_bytes(n + 3);
                    let mut told = marks.clone();
                    told[..n].fill(0);
                    for &name in &asked.opened {
                        told[name] = 1;
                    }
                    let mut words = vec![WORD; needed + 2];
                    let answer = ask(&bytes, u as u32, v as u32, &mut marks, &mut words);
                    assert_eq!(answer, Ok(asked.answer));
                    assert_eq!(marks, told);
                    assert_eq!(words, [vec![0; needed], vec![WORD; 2]].concat());
                }
            }
        }
    }
}

#[test]
fn same_group_comes_before_the_level_tie() {
    for form in ORDINARY {
        let index = built(&form, &independent::Graph::new(2, &[(0, 1), (1, 0)]), &[vec![0, 1]]);
        for (source, target) in [(0, 0), (0, 1), (1, 0), (1, 1)] {
            let answer = ask(&index, source, target, &mut [0; 2], &mut words_for(&index)).unwrap();
            assert_eq!((answer.yes, answer.reason), (true, 1));
        }
    }
}
