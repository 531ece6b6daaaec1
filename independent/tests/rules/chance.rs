//! What is made by chance is of the kind that was asked for.

use crate::given::{built, g, rising};
use independent::chance::{Chance, Damage, Kind};
use independent::graph::is_permutation;
use independent::groups::Groups;
use independent::{FORM_1, FORM_2, ORDINARY};

#[test]
fn graphs_keep_the_bounds() {
    let mut chance = Chance::new(61);
    for n in (0..12).chain([100, 4_096, 200_000]) {
        for kind in Kind::ALL {
            for form in [FORM_1, FORM_2] {
                let graph = chance.graph_of(kind, n, form.most_edges);
                assert_eq!(graph.n, n);
                assert!(graph.edges.len() <= form.most_edges);
                assert!(graph.edges.iter().all(|&(u, v)| u < n && v < n));
            }
        }
        assert!(is_permutation(&chance.order(n), n));
    }
}

#[test]
fn graphs_are_of_their_kind() {
    let mut chance = Chance::new(62);
    for n in 2..40 {
        let mut groups = |kind| Groups::of(&chance.graph(kind, n));
        for kind in [
            Kind::Dag,
            Kind::Line,
            Kind::Star,
            Kind::Ladder,
            Kind::Grid,
            Kind::Forest,
            Kind::Layered,
            Kind::CompleteBipartite,
        ] {
            assert_eq!(groups(kind).list.len(), n, "{kind:?}");
        }
        assert_eq!(groups(Kind::Cycle).list.len(), 1);
        assert_eq!(groups(Kind::Line).levels.iter().max(), Some(&(n - 1)));
        assert_eq!(groups(Kind::Star).levels.iter().max(), Some(&1));
        assert!(groups(Kind::CompleteBipartite).levels.iter().max() <= Some(&1));
        let mut parents = vec![0; n];
        for child in groups(Kind::Forest).children.into_iter().flatten() {
            parents[child] += 1;
        }
        assert!(parents.iter().all(|&count| count <= 1));
    }
}

#[test]
fn the_same_seed_gives_the_same() {
    let image = built(&FORM_1, &g(), &[rising(6)]);
    let made = |seed| {
        let mut chance = Chance::new(seed);
        (chance.any_graph(30), chance.orders(30, 2), chance.any_damage(&image))
    };
    assert_eq!(made(5), made(5));
    assert_ne!(made(5), made(6));
}

#[test]
fn every_damage_alters_the_bytes_sooner_or_later() {
    let mut chance = Chance::new(63);
    for form in ORDINARY {
        let image = built(&form, &g(), &[rising(6)]);
        for kind in Damage::ALL {
            assert!((0..100).any(|_| chance.damage(kind, &image) != image), "{kind:?}");
        }
    }
}

#[test]
fn bytes_too_short_can_be_damaged_too() {
    let mut chance = Chance::new(64);
    for length in 0..60 {
        for kind in Damage::ALL {
            for number in [1, 2, 3] {
                let mut bytes = vec![1; length];
                bytes
                    .iter_mut()
                    .zip([number, 0, 0, 0])
                    .for_each(|(byte, part)| *byte = part);
                chance.damage(kind, &bytes);
            }
        }
    }
}
