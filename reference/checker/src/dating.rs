//! Datings and profiles of a whole path, by relaxing its bounds (Bellman–Ford).
//!
//! A value is attached to every event of the path. Following a bound may lower the value of the event it leads to; what no
//! bound lowers any more is the smallest sum over all chains. Charts are taken from one end of the path to the other and
//! back, and only those where a value fell since the last visit.

use crate::bounds::{Bound, PathBounds, Sense};
use crate::chart::MOST_STATIONS;
use crate::register::Profile;

/// Larger than any sum that is met; not reached so far.
const UNREACHED: i64 = i64::MAX;
const NO_EVENT: usize = usize::MAX;

/// The earliest dating, by event number on the path, or none if the path cannot be dated.
///
/// A bound y − x ≤ w also says x ≥ y − w. So dates start at 0 and rise where a bound asks for it: relaxation against the
/// bounds, with dates below 0.
pub fn earliest_dating(path: &PathBounds) -> Option<Vec<i64>> {
    let start = vec![0; path.events()];
    let lowest = Relaxation::new(path, Sense::Against, start).run()?;
    Some(lowest.into_iter().map(|value| -value).collect())
}

/// The profile, or none if the path cannot be dated. Entry p, q is the smallest sum over the chains of bounds that lead
/// from q's last event to p's, through any charts of the path.
pub fn profile(path: &PathBounds) -> Option<Profile> {
    let stations = path.book.stations;
    let end = path.positions() - 1;
    let mut profile = [[0; MOST_STATIONS]; MOST_STATIONS];
    for q in 0..stations {
        let mut start = vec![UNREACHED; path.events()];
        start[path.last_event(end, q)] = 0;
        let smallest = Relaxation::new(path, Sense::Along, start).run()?;
        for (p, row) in profile.iter_mut().enumerate().take(stations) {
            row[q] = smallest[path.last_event(end, p)];
        }
    }
    Some(profile)
}

/// A cycle of bounds with a sum below 0: there is no dating.
struct BadCycle;

struct Relaxation<'a> {
    path: &'a PathBounds<'a>,
    sense: Sense,
    values: Vec<i64>,
    /// From which event each value came.
    came_from: Vec<usize>,
    /// Positions where a value fell since the last visit.
    fell: Vec<bool>,
}

impl<'a> Relaxation<'a> {
    fn new(path: &'a PathBounds<'a>, sense: Sense, values: Vec<i64>) -> Self {
        let fell = (0..path.positions()).map(|position| values[path.events_at(position)].iter().any(|&value| value != UNREACHED));
        Relaxation { path, sense, fell: fell.collect(), came_from: vec![NO_EVENT; values.len()], values }
    }

    /// The values that no bound lowers any more, or none if there is a bad cycle.
    fn run(mut self) -> Option<Vec<i64>> {
        // Sweep k has seen all chains of k bounds, and a chain without a cycle has fewer bounds than there are events.
        for sweep in 0..=self.values.len() {
            self.sweep(sweep % 2 == 0).ok()?;
            if !self.fell.contains(&true) {
                return Some(self.values);
            }
            if self.has_circular_origin() {
                return None;
            }
        }
        None
    }

    fn sweep(&mut self, forwards: bool) -> Result<(), BadCycle> {
        let positions = self.path.positions();
        for step in 0..positions {
            let position = if forwards { step } else { positions - 1 - step };
            if std::mem::take(&mut self.fell[position]) {
                self.settle_chart(position)?;
                self.follow_links(position);
            }
        }
        Ok(())
    }

    /// Relaxes the bounds inside one chart until they lower nothing.
    fn settle_chart(&mut self, position: usize) -> Result<(), BadCycle> {
        let rounds = self.path.chart(position).events;
        for _ in 0..rounds {
            let by_arcs = self.follow_arcs(position);
            let by_drift = self.follow_drift(position);
            if !by_arcs && !by_drift {
                return Ok(());
            }
        }
        // As many rounds as events, and still falling.
        Err(BadCycle)
    }

    fn follow_arcs(&mut self, position: usize) -> bool {
        let path = self.path;
        let start = path.starts[position];
        let arcs = path.chart(position).arcs(self.sense);
        let mut fell = false;
        for arc in arcs {
            fell |= self.lower(start + arc.from, start + arc.to, arc.most);
        }
        fell
    }

    /// Near and far. As all bounds of a group have the same weight, those that leave its smallest value lower the most, and
    /// they do not lower that value itself.
    fn follow_drift(&mut self, position: usize) -> bool {
        let path = self.path;
        let start = path.starts[position];
        let chart = path.chart(position);
        let (working, silent, end) = (start, start + chart.working, start + chart.events);
        let mut fell = self.lower_all(working..silent, working..silent, path.book.near);
        if silent < end {
            fell |= self.lower_all(working..end, silent..end, path.book.far);
            fell |= self.lower_all(silent..end, working..silent, path.book.far);
        }
        fell
    }

    fn lower_all(&mut self, from: std::ops::Range<usize>, to: std::ops::Range<usize>, most: i64) -> bool {
        let Some(smallest) = from.min_by_key(|&event| self.values[event]) else {
            return false;
        };
        let mut fell = false;
        for event in to {
            fell |= self.lower(smallest, event, most);
        }
        fell
    }

    /// Relaxes the bounds of the links on both sides of a position, and notes where a neighbour fell.
    fn follow_links(&mut self, position: usize) {
        if position > 0 && self.follow_link(position - 1, position) {
            self.fell[position - 1] = true;
        }
        if position + 1 < self.path.positions() && self.follow_link(position, position) {
            self.fell[position + 1] = true;
        }
    }

    /// Follows the bounds of the link at a position that leave the chart at position `leaving`.
    fn follow_link(&mut self, link: usize, leaving: usize) -> bool {
        let path = self.path;
        let here = path.events_at(leaving);
        let mut fell = false;
        for Bound { from, to, most } in path.link_bounds(link) {
            let (from, to) = if self.sense == Sense::Along { (from, to) } else { (to, from) };
            if here.contains(&from) {
                fell |= self.lower(from, to, most);
            }
        }
        fell
    }

    fn lower(&mut self, from: usize, to: usize, most: i64) -> bool {
        let value = self.values[from];
        let lowers = value != UNREACHED && value + most < self.values[to];
        if lowers {
            self.values[to] = value + most;
            self.came_from[to] = from;
        }
        lowers
    }

    /// Whether some value came from itself by way of others. That happens only by a bad cycle, and shows it long before the
    /// sweeps run out.
    fn has_circular_origin(&self) -> bool {
        let mut seen_by = vec![NO_EVENT; self.values.len()];
        for event in 0..self.values.len() {
            let mut at = event;
            while at != NO_EVENT && seen_by[at] == NO_EVENT {
                seen_by[at] = event;
                at = self.came_from[at];
            }
            if at != NO_EVENT && seen_by[at] == event {
                return true;
            }
        }
        false
    }
}

#[cfg(test)]
mod tests {
    use super::*;
    use crate::bounds::{BookBounds, interval_bounds};
    use crate::chart::Book;
    use crate::generate::{Random, good_book};

    /// Every bound of a path, pair by pair as the five rules say.
    fn every_bound(book: &Book, path: &PathBounds) -> Vec<Bound> {
        let mut bounds: Vec<Bound> = (0..path.links.len()).flat_map(|position| path.link_bounds(position)).collect();
        for (position, &visit) in path.visits.iter().enumerate() {
            let chart = &book.charts[visit];
            let start = path.starts[position];
            bounds.extend(chart.directly_before().map(|(a, b)| Bound { from: start + b, to: start + a, most: 0 }));
            let constraints = chart.constraints.iter();
            bounds.extend(constraints.flat_map(|c| interval_bounds(start + c.first, start + c.second, c.interval)));
            let working = start + chart.events.len();
            for (from, to) in path.events_at(position).flat_map(|a| path.events_at(position).map(move |b| (a, b))) {
                let most = if from < working && to < working { book.near } else { book.far };
                bounds.push(Bound { from, to, most: most.into() });
            }
        }
        bounds
    }

    /// The smallest sums over all chains, by Floyd and Warshall; none if a cycle has a sum below 0.
    fn smallest_sums(events: usize, bounds: &[Bound]) -> Option<Vec<Vec<i64>>> {
        let none = i64::MAX / 4;
        let mut sums = vec![vec![none; events]; events];
        for (event, row) in sums.iter_mut().enumerate() {
            row[event] = 0;
        }
        for bound in bounds {
            let sum = &mut sums[bound.from][bound.to];
            *sum = bound.most.min(*sum);
        }
        for through in 0..events {
            let second = sums[through].clone();
            for first in &mut sums {
                let lead = first[through];
                for (sum, &tail) in first.iter_mut().zip(&second) {
                    *sum = (*sum).min(lead + tail);
                }
            }
            // Sums over a bad cycle would double from here on.
            if (0..events).any(|event| sums[event][event] < 0) {
                return None;
            }
        }
        Some(sums)
    }

    /// A path of some links that begin where it stands.
    fn stroll(random: &mut Random, book: &Book) -> Vec<usize> {
        let mut links = Vec::new();
        let mut stands_at = book.first;
        for _ in 0..random.below(7) {
            let onwards: Vec<usize> = (0..book.links.len()).filter(|&link| book.links[link].from == stands_at).collect();
            if onwards.is_empty() {
                break;
            }
            let link = random.pick(&onwards);
            stands_at = book.links[link].to;
            links.push(link);
        }
        links
    }

    /// Relaxation in sweeps, with near and far taken as groups, gives what all bounds give when each is looked at.
    #[test]
    fn relaxation_agrees_with_all_bounds() {
        let mut random = Random::new(5);
        let (mut dated, mut undated) = (0, 0);
        for _ in 0..3_000 {
            let book = good_book(&mut random);
            let links = stroll(&mut random, &book);
            let bounds = BookBounds::of(&book);
            let path = bounds.path(book.visits(&links), links);
            if path.events() > 120 {
                continue;
            }
            let sums = smallest_sums(path.events(), &every_bound(&book, &path));
            let earliest = sums.as_ref().map(|sums| {
                let latest_of = |event: usize| sums[event].iter().map(|sum| -sum).max().unwrap_or(0);
                (0..path.events()).map(latest_of).collect::<Vec<i64>>()
            });
            assert_eq!(earliest_dating(&path), earliest);
            assert_eq!(profile(&path), sums.as_ref().map(|sums| profile_from(sums, &path)));
            *(if sums.is_some() { &mut dated } else { &mut undated }) += 1;
        }
        assert!(dated > 500 && undated > 500, "{dated} dated, {undated} not");
    }

    fn profile_from(sums: &[Vec<i64>], path: &PathBounds) -> Profile {
        let end = path.positions() - 1;
        let mut profile = [[0; MOST_STATIONS]; MOST_STATIONS];
        for (p, q) in (0..path.book.stations).flat_map(|p| (0..path.book.stations).map(move |q| (p, q))) {
            profile[p][q] = sums[path.last_event(end, q)][path.last_event(end, p)];
        }
        profile
    }
}
