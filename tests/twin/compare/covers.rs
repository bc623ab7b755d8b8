//! Groups on small maps: every list of packets that turns held into wanted, held against the plan.

use twin::planner::packet_bytes;

use crate::upload::{Outcome, Upload};
use crate::uploads::{maps, Kind};

/// The patterns of so many points, as bits.
pub fn patterns(points: usize) -> impl Iterator<Item = u32> {
    0..1 << points
}

/// All lists that rise and don't overlap, their packets starting at any point: the plan is the one
/// of least bytes, then with the least first count, the least second and so on, and the only one.
/// The room has the least bytes from each point on, and the choices the first count of such a list.
pub fn every_list(upload: &mut Upload) {
    for points in 1..=9 {
        for pattern in patterns(points) {
            let (held, wanted) = maps(upload, points, Kind::Any, |place| pattern >> place & 1 == 1);
            let outcome = upload.plan(&held, &wanted);
            for from in (0..points).rev() {
                every_list_from(upload, points, pattern, from, &outcome);
            }
        }
    }
}

/// The lists for the points from one of them on, against what was planned for all of them.
fn every_list_from(upload: &mut Upload, points: usize, pattern: u32, from: usize, outcome: &Outcome) {
    let mut search = Search { pattern, points, list: vec![], best: None, same: 0, lists: 0 };
    search.extend(from, 0);
    upload.counts.lists += search.lists;
    let (bytes, counts, list) = search.best.expect("one packet for each point is such a list");
    let input = || format!("{points} points, {pattern:b}");
    let room = outcome.room.get(from).copied();
    upload
        .expect(room == Some(bytes as u32), || format!("room {room:?} at {from}, not {bytes}: {}", input()));
    let due = if pattern >> from & 1 == 1 { counts[0] } else { 0 };
    let choice = outcome.choices.get(from).copied().map(usize::from);
    upload.expect(choice == Some(due), || format!("choice {choice:?} at {from}, not {due}: {}", input()));
    let same = search.same;
    upload.expect(same == 1, || format!("{same} lists of counts {counts:?}: {}", input()));
    if from == 0 {
        let found = (outcome.bytes, &outcome.plan);
        upload.expect(found == (bytes, &list), || {
            format!("{found:?}, not {bytes} bytes and {list:?}: {}", input())
        });
    }
}

type List = Vec<(usize, usize)>;

struct Search {
    pattern: u32,
    points: usize,
    list: List,
    /// Bytes and counts of the best list, and the list.
    best: Option<(usize, Vec<usize>, List)>,
    /// Lists with these bytes and counts.
    same: u64,
    lists: u64,
}

impl Search {
    /// Goes on with every list for the points from `place` on.
    fn extend(&mut self, place: usize, bytes: usize) {
        if place == self.points {
            return self.close(bytes);
        }
        if self.pattern >> place & 1 == 0 {
            self.extend(place + 1, bytes);
        }
        for count in 1..=self.points - place {
            self.list.push((place, count));
            self.extend(place + count, bytes + packet_bytes(count));
            self.list.pop();
        }
    }

    fn close(&mut self, bytes: usize) {
        self.lists += 1;
        if self.best.as_ref().is_some_and(|(best, _, _)| *best < bytes) {
            return;
        }
        let counts: Vec<usize> = self.list.iter().map(|(_, count)| *count).collect();
        match &self.best {
            Some((best, best_counts, _)) if (*best, best_counts) < (bytes, &counts) => {}
            Some((best, best_counts, _)) if (*best, best_counts) == (bytes, &counts) => self.same += 1,
            _ => {
                self.best = Some((bytes, counts, self.list.clone()));
                self.same = 1;
            }
        }
    }
}

/// Packets that overlap, come twice or in any order: by the points that a list has written so far,
/// the least bytes that get there. None gets to all that differ with fewer than the plan.
pub fn any_order(upload: &mut Upload) {
    for points in 1..=12 {
        let packets: Vec<(u32, usize)> = (0..points)
            .flat_map(|start| (1..=points - start).map(move |count| (start, count)))
            .map(|(start, count)| (((1 << count) - 1) << start, packet_bytes(count)))
            .collect();
        // A packet adds points to those written, or is of no use: so from fewer to more is enough.
        let mut least = vec![usize::MAX; 1 << points];
        least[0] = 0;
        for written in patterns(points) {
            if least[written as usize] == usize::MAX {
                continue;
            }
            for (added, bytes) in &packets {
                let then = (written | added) as usize;
                least[then] = least[then].min(least[written as usize] + bytes);
            }
        }
        for pattern in patterns(points) {
            let (held, wanted) = maps(upload, points, Kind::Any, |place| pattern >> place & 1 == 1);
            let Outcome { bytes, .. } = upload.plan(&held, &wanted);
            let enough = patterns(points).filter(|written| written & pattern == pattern);
            let best = enough.map(|written| least[written as usize]).min().expect("all points are enough");
            upload.expect(bytes == best, || format!("{bytes} bytes, not {best}: {points}, {pattern:b}"));
        }
    }
}
