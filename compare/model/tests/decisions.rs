//! The boundary search's tree of decisions, walked whole: no estimate is needed.
use std::collections::BTreeSet;

/// The search's answer where the probes are decided as told, and not over after that; all decisions, and the probes.
fn decided(told: &[bool]) -> (u32, Vec<bool>, Vec<u32>) {
    let (mut decisions, mut probes) = (Vec::new(), Vec::new());
    let answer = hca_model::search_boundary(&mut |probe| {
        let over = told.get(decisions.len()).copied().unwrap_or(false);
        decisions.push(over);
        probes.push(probe);
        over
    });
    (answer, decisions, probes)
}

#[test]
fn every_boundary_is_the_end_of_one_path() {
    let (mut ends, mut probes, mut deepest) = (Vec::new(), BTreeSet::new(), 0);
    let mut told = Vec::new();
    loop {
        let (answer, decisions, asked) = decided(&told);
        ends.push(answer);
        deepest = deepest.max(asked.len());
        assert!(asked.iter().all(|probe| (1..=127).contains(probe)));
        // a probe is told by the decisions before it
        probes.extend((0..asked.len()).map(|k| decisions[..k].to_vec()));
        // the next path: the last probe that was not over is over
        let Some(last) = decisions.iter().rposition(|over| !over) else { break };
        told = decisions[..last].to_vec();
        told.push(true);
    }
    assert_eq!((probes.len(), ends.len(), deepest), (127, 128, 8));
    ends.sort_unstable();
    assert_eq!(ends, (0..128).collect::<Vec<u32>>());
}
