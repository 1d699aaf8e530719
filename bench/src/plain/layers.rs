//! Stratification and two-stage drawing.

use super::{Design, Fault, Row, Share, check_count, check_list, check_step};
use std::ops::Range;

// The runs of rows that are alike.
fn parts(list: &[Row], alike: impl Fn(&Row, &Row) -> bool) -> Vec<Range<usize>> {
    let mut parts: Vec<Range<usize>> = Vec::new();
    for k in 0..list.len() {
        match parts.last_mut() {
            Some(part) if alike(&list[k - 1], &list[k]) => part.end = k + 1,
            _ => parts.push(k..k + 1),
        }
    }
    parts
}

// A row for each cluster: its first row, with the sum of its sizes.
fn heads(list: &[Row], clusters: &[Range<usize>]) -> Vec<Row> {
    let size = |part: &Range<usize>| list[part.clone()].iter().map(|row| row.size).sum();
    clusters.iter().map(|part| Row { size: size(part), ..list[part.start] }).collect()
}

/// A design on chosen parts of a list, one after another.
#[derive(Default)]
struct Series<D> {
    below: D,
    list: Vec<Row>,
    parts: Vec<Range<usize>>,
    samples: Vec<u32>,
    chosen: Vec<bool>,
    first: Vec<Share>,
    at: usize,
    taken: Vec<bool>,
}

impl<D: Design> Series<D> {
    fn load(&mut self, list: &[Row], parts: Vec<Range<usize>>, samples: Vec<u32>) {
        self.list = list.to_vec();
        self.parts = parts;
        self.samples = samples;
        self.first.clear();
    }

    // Begins the design on every part, and notes its shares.
    fn try_all(&mut self) -> Result<(), Fault> {
        for (part, n) in self.parts.iter().zip(&self.samples) {
            self.below.begin(&self.list[part.clone()], *n).map_err(|fault| fault.up(fault.row as usize + part.start))?;
            for k in 0..part.len() {
                self.first.push(self.below.share(k)?);
            }
        }
        Ok(())
    }

    fn start(&mut self, chosen: Vec<bool>) -> Result<(), Fault> {
        self.chosen = chosen;
        self.taken = vec![false; self.list.len()];
        self.at = 0;
        self.enter()
    }

    // Goes on to the next chosen part that has a way.
    fn enter(&mut self) -> Result<(), Fault> {
        while self.at < self.parts.len() {
            if self.chosen[self.at] {
                self.below.begin(&self.list[self.parts[self.at].clone()], self.samples[self.at])?;
                if self.below.ways() != 0 {
                    return Ok(());
                }
                self.note()?;
            }
            self.at += 1;
        }
        Ok(())
    }

    fn note(&mut self) -> Result<(), Fault> {
        let part = self.parts[self.at].clone();
        for k in part.clone() {
            self.taken[k] = self.below.taken(k - part.start)?;
        }
        Ok(())
    }

    fn ways(&self) -> u32 {
        if self.at < self.parts.len() { self.below.ways() } else { 0 }
    }

    fn step(&mut self, d: u32) -> Result<(), Fault> {
        check_step(d, self.ways())?;
        self.below.step(d)?;
        if self.below.ways() == 0 {
            self.note()?;
            self.at += 1;
            self.enter()?;
        }
        Ok(())
    }

    fn part_of(&self, k: usize) -> usize {
        self.parts.partition_point(|part| part.end <= k)
    }

    fn share(&self, k: usize) -> Result<Share, Fault> {
        let part = self.part_of(k);
        let (numerator, denominator) = self.first[k];
        if !self.chosen[part] {
            return Ok((0, denominator));
        }
        if part < self.at {
            return Ok((if self.taken[k] { denominator } else { 0 }, denominator));
        }
        if part > self.at {
            return Ok((numerator, denominator));
        }
        self.below.share(k - self.parts[part].start)
    }
}

/// A design on each stratum.
#[derive(Default)]
pub struct Stratified<D> {
    series: Series<D>,
    takes: Vec<u32>,
    running: bool,
}

impl<D: Design> Stratified<D> {
    pub fn over(below: D) -> Self
    where
        D: Default,
    {
        Stratified { series: Series { below, ..Series::default() }, takes: Vec::new(), running: false }
    }

    pub fn allot(&mut self, takes: &[u32]) -> Result<(), Fault> {
        if takes.is_empty() || takes.len() > 64 {
            return Err(Fault::of(7));
        }
        if takes.contains(&0) {
            return Err(Fault::of(8));
        }
        self.takes = takes.to_vec();
        self.running = false;
        Ok(())
    }
}

impl<D: Design> Design for Stratified<D> {
    fn begin(&mut self, list: &[Row], n: u32) -> Result<(), Fault> {
        self.running = false;
        if self.takes.is_empty() {
            return Err(Fault::of(10));
        }
        check_count(list)?;
        if let Some(k) = (1..list.len()).find(|k| list[*k].stratum < list[k - 1].stratum) {
            return Err(Fault::at(11, k));
        }
        let strata = parts(list, |a, b| a.stratum == b.stratum);
        if strata.len() != self.takes.len() {
            return Err(Fault::of(12));
        }
        if self.takes.iter().map(|take| u64::from(*take)).sum::<u64>() != u64::from(n) {
            return Err(Fault::of(13));
        }
        let chosen = vec![true; strata.len()];
        self.series.load(list, strata, self.takes.clone());
        self.series.try_all()?;
        self.series.start(chosen)?;
        self.running = true;
        Ok(())
    }

    fn ways(&self) -> u32 {
        if self.running { self.series.ways() } else { 0 }
    }

    fn step(&mut self, d: u32) -> Result<(), Fault> {
        if !self.running {
            return Err(Fault::of(17));
        }
        self.series.step(d)
    }

    fn share(&self, k: usize) -> Result<Share, Fault> {
        if !self.running || k >= self.series.list.len() {
            return Err(Fault::of(19));
        }
        self.series.share(k)
    }
}

#[derive(Clone, Copy, Default, PartialEq, Eq)]
enum Stage {
    #[default]
    Idle,
    First,
    Second,
}

/// A design on the clusters, and one in each that is taken.
#[derive(Default)]
pub struct TwoStage<A, B> {
    first: A,
    second: Series<B>,
    of_first: Vec<u64>,
    m: u32,
    stage: Stage,
}

impl<A: Design, B: Design + Default> TwoStage<A, B> {
    pub fn over(first: A, below: B) -> Self {
        let second = Series { below, ..Series::default() };
        TwoStage { first, second, of_first: Vec::new(), m: 0, stage: Stage::Idle }
    }

    pub fn within(&mut self, m: u32) -> Result<(), Fault> {
        if m == 0 || m > 1024 {
            return Err(Fault::of(9));
        }
        self.m = m;
        self.stage = Stage::Idle;
        Ok(())
    }
}

impl<A: Design, B: Design> TwoStage<A, B> {
    // The second stage starts where the first has come to its outcome.
    fn settle(&mut self) -> Result<(), Fault> {
        if self.first.ways() == 0 {
            let chosen = (0..self.second.parts.len()).map(|c| self.first.taken(c)).collect::<Result<_, _>>()?;
            self.second.start(chosen)?;
            self.stage = Stage::Second;
        }
        Ok(())
    }
}

impl<A: Design, B: Design> Design for TwoStage<A, B> {
    fn begin(&mut self, list: &[Row], n: u32) -> Result<(), Fault> {
        self.stage = Stage::Idle;
        if self.m == 0 {
            return Err(Fault::of(10));
        }
        check_list(list, n)?;
        let pair = |row: &Row| (row.stratum, row.cluster);
        if let Some(k) = (1..list.len()).find(|k| pair(&list[*k]) < pair(&list[k - 1])) {
            return Err(Fault::at(11, k));
        }
        if n % self.m != 0 {
            return Err(Fault::of(14));
        }
        let clusters = parts(list, |a, b| pair(a) == pair(b));
        if clusters.len() > 128 {
            return Err(Fault::at(15, clusters[128].start));
        }
        self.first.begin(&heads(list, &clusters), n / self.m).map_err(|fault| fault.up(clusters[fault.row as usize].start))?;
        let samples = vec![self.m; clusters.len()];
        self.second.load(list, clusters, samples);
        self.second.try_all()?;
        self.of_first.clear();
        for (c, part) in self.second.parts.iter().enumerate() {
            let (_, over) = self.first.share(c)?;
            self.of_first.push(over);
            for k in part.clone() {
                if u128::from(over) * u128::from(self.second.first[k].1) > 1_000_000_000_000_000 {
                    return Err(Fault::at(16, k));
                }
            }
        }
        self.stage = Stage::First;
        self.settle()
    }

    fn ways(&self) -> u32 {
        match self.stage {
            Stage::Idle => 0,
            Stage::First => self.first.ways(),
            Stage::Second => self.second.ways(),
        }
    }

    fn step(&mut self, d: u32) -> Result<(), Fault> {
        match self.stage {
            Stage::Idle => Err(Fault::of(17)),
            Stage::First => {
                self.first.step(d)?;
                self.settle()
            }
            Stage::Second => self.second.step(d),
        }
    }

    fn share(&self, k: usize) -> Result<Share, Fault> {
        if self.stage == Stage::Idle || k >= self.second.list.len() {
            return Err(Fault::of(19));
        }
        let cluster = self.second.part_of(k);
        let (outer, inner) = match self.stage {
            Stage::Second => {
                let over = self.of_first[cluster];
                ((over, over), self.second.share(k)?)
            }
            _ => (self.first.share(cluster)?, self.second.first[k]),
        };
        Ok((outer.0 * inner.0, outer.1 * inner.1))
    }
}
