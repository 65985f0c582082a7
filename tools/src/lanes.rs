//! Puts stretches of the picture into as few lanes as needed, so that no two of a lane overlap.

/// For each stretch, from left to right by its start, the first lane that is free there.
pub fn assign(stretches: &[(f64, f64)]) -> Vec<usize> {
    let mut ends: Vec<f64> = Vec::new();
    let mut lanes = Vec::new();
    for &(start, end) in stretches {
        let free = ends.iter().position(|&taken| taken <= start);
        let lane = free.unwrap_or(ends.len());
        match free {
            Some(lane) => ends[lane] = end,
            None => ends.push(end),
        }
        lanes.push(lane);
    }
    lanes
}

#[cfg(test)]
mod tests {
    use super::*;

    #[test]
    fn a_lane_is_used_again_once_it_is_free() {
        let stretches = [(0.0, 5.0), (2.0, 4.0), (4.0, 9.0), (5.0, 6.0)];
        assert_eq!(assign(&stretches), [0, 1, 1, 0]);
    }

    /// As many lanes as stretches lie over each other at the worst place, and no more.
    #[test]
    fn no_two_of_a_lane_overlap_and_no_lane_is_wasted() {
        let mut seed: u32 = 1;
        let mut draw = |below: u32| {
            seed = seed.wrapping_mul(1_664_525).wrapping_add(1_013_904_223);
            (seed >> 8) % below
        };
        for _ in 0..500 {
            let mut starts: Vec<u32> = (0..draw(30)).map(|_| draw(100)).collect();
            starts.sort_unstable();
            let stretch = |start: u32| (start.into(), f64::from(start + 1 + draw(25)));
            let stretches: Vec<(f64, f64)> = starts.into_iter().map(stretch).collect();
            let lanes = assign(&stretches);
            assert_eq!(lanes.len(), stretches.len());
            for (i, &(start, _)) in stretches.iter().enumerate() {
                let mut before = (0..i).filter(|&j| stretches[j].1 > start);
                assert!(before.all(|j| lanes[j] != lanes[i]), "{stretches:?}");
            }
            let over = |at: f64| stretches.iter().filter(move |s| s.0 <= at && at < s.1);
            let most = stretches.iter().map(|s| over(s.0).count()).max();
            let used = lanes.iter().max().map(|lane| lane + 1);
            assert_eq!(used, most);
        }
    }

    #[test]
    fn nothing_needs_no_lane() {
        assert!(assign(&[]).is_empty());
    }
}
