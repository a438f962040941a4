//! The reference that the Rust is fed has at each position the letter of the first group that holds it, once.

use oracle::cohort::{flattened, Stretch};
use oracle::rng::Rng;

/// The letters of a position, one for each group that holds it, in order.
fn letters(groups: &[Stretch], contig: &str, position: u64) -> Vec<u8> {
    groups
        .iter()
        .filter(|g| g.contig == contig && g.first <= position)
        .filter_map(|g| g.bases.as_bytes().get((position - g.first) as usize).copied())
        .collect()
}

#[test]
fn the_first_group_gives_the_letter() {
    let mut rng = Rng::new(11);
    for _ in 0..2000 {
        let groups: Vec<Stretch> = (0..rng.range(0, 6))
            .map(|_| Stretch {
                contig: rng.pick(&["c", "d"]).to_string(),
                first: rng.range(1, 12),
                bases: (0..rng.range(1, 8)).map(|_| *rng.pick(&['A', 'C', 'G', 'T', 'N'])).collect(),
            })
            .collect();
        let flat = flattened(&groups);
        for contig in ["c", "d"] {
            for position in 1..=20 {
                let first = letters(&groups, contig, position).into_iter().take(1).collect::<Vec<_>>();
                assert_eq!(letters(&flat, contig, position), first, "{groups:?} at {contig}:{position}");
            }
        }
    }
}
