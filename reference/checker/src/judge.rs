//! The judge: whether written dates keep the five rules. It goes by the rules themselves and knows nothing of bounds.

use crate::chart::{Book, Chart};
use crate::fault::Fault;
use crate::reader::read_book;

/// A path that is judged has at most this many links.
pub const MOST_LINKS: usize = 4_095;

#[derive(Debug, Clone, Copy, PartialEq, Eq)]
pub enum Judgement {
    Kept,
    /// The smallest position whose chart breaks a rule.
    Broken {
        position: usize,
    },
}

pub fn judge(bytes: &[u8], links: &[usize], dates: &[u32]) -> Result<Judgement, Fault> {
    let book = read_book(bytes)?;
    check_links(&book, links)?;
    let visits = visits_dated(&book, links, dates)?;
    let broken = (0..visits.len()).find(|&position| {
        let arrival_kept = position == 0 || {
            let link = &book.links[links[position - 1]];
            (0..book.stations).all(|station| {
                let moved_on = visits[position].first_date(station) - visits[position - 1].last_date(station);
                link.intervals[station].contains(moved_on)
            })
        };
        !(arrival_kept && visits[position].keeps_chart_rules(&book))
    });
    Ok(broken.map_or(Judgement::Kept, |position| Judgement::Broken { position }))
}

/// Each link begins where the path stands, and there are not too many.
fn check_links(book: &Book, links: &[usize]) -> Result<(), Fault> {
    let mut stands_at = book.first;
    for (position, &number) in links.iter().enumerate() {
        let link = book.links.get(number).filter(|link| link.from == stands_at && position < MOST_LINKS);
        stands_at = link.ok_or(Fault::BadLinkNumber { position })?.to;
    }
    Ok(())
}

/// A visited chart with the dates of its events.
struct Visit<'a> {
    chart: &'a Chart,
    stations: Vec<usize>,
    dates: Vec<i64>,
}

fn visits_dated<'a>(book: &'a Book, links: &[usize], dates: &[u32]) -> Result<Vec<Visit<'a>>, Fault> {
    let charts = book.visits(links).into_iter().map(|chart| &book.charts[chart]);
    let full: Vec<_> = charts.map(|chart| (chart, chart.full_stations(book.stations))).collect();
    let needed = full.iter().map(|(_, stations)| stations.len()).sum();
    if dates.len() != needed {
        return Err(Fault::WrongDateCount { needed });
    }
    let mut rest = dates.iter().copied().map(i64::from);
    let visit =
        |(chart, stations): (_, Vec<usize>)| Visit { chart, dates: rest.by_ref().take(stations.len()).collect(), stations };
    Ok(full.into_iter().map(visit).collect())
}

impl Visit<'_> {
    fn first_date(&self, station: usize) -> i64 {
        let event = self.stations.iter().position(|&on| on == station);
        self.dates[event.expect("a full chart has events on every station")]
    }

    fn last_date(&self, station: usize) -> i64 {
        let event = self.stations.iter().rposition(|&on| on == station);
        self.dates[event.expect("a full chart has events on every station")]
    }

    fn keeps_chart_rules(&self, book: &Book) -> bool {
        self.keeps_order() && self.keeps_constraints() && self.keeps_drift(book)
    }

    fn keeps_order(&self) -> bool {
        self.chart.directly_before().all(|(a, b)| self.dates[a] <= self.dates[b])
    }

    fn keeps_constraints(&self) -> bool {
        let difference = |first: usize, second: usize| self.dates[second] - self.dates[first];
        let mut constraints = self.chart.constraints.iter();
        constraints.all(|constraint| constraint.interval.contains(difference(constraint.first, constraint.second)))
    }

    fn keeps_drift(&self, book: &Book) -> bool {
        let working = self.chart.events.len();
        (0..self.dates.len()).all(|a| {
            (0..a).all(|b| {
                let most = if a < working && b < working { book.near } else { book.far };
                (self.dates[a] - self.dates[b]).abs() <= i64::from(most)
            })
        })
    }
}
