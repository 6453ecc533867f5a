// The bench: a board run tick by tick, with public fields so that a broken one can be made too.

use crate::list::{check, refuse, Refusal, Row};

pub const LAST_INSTANT: u64 = 1_000_000_000;

#[derive(Clone, Debug, PartialEq, Eq)]
pub struct Bench {
    pub cores: u64,
    pub instant: u64,
    pub rows: Vec<BenchRow>,
}

#[derive(Clone, Copy, Debug, PartialEq, Eq)]
pub struct BenchRow {
    pub row: Row,
    pub last_release: Option<u64>,
    pub demand: u64,
    pub remaining: u64,
}

/// A poll that finished in a tick: finish instant minus release instant.
#[derive(Clone, Copy, Debug, PartialEq, Eq)]
pub struct Finish {
    pub place: usize,
    pub response: u64,
}

/// The clauses of number 29.
#[derive(Clone, Copy, Debug, PartialEq, Eq)]
pub enum Clause {
    /// The table fails this check.
    Table(u32),
    Instant,
    LastRelease,
    Demand,
    Remainder,
    NeverReleased,
}

impl Bench {
    pub fn open(cores: u64, rows: &[Row]) -> Result<Bench, Refusal> {
        check(cores, rows)?;
        let fresh = |&row| BenchRow {
            row,
            last_release: None,
            demand: 0,
            remaining: 0,
        };
        Ok(Bench {
            cores,
            instant: 0,
            rows: rows.iter().map(fresh).collect(),
        })
    }

    pub fn release(&mut self, place: u64, demand: u64) -> Result<(), Refusal> {
        self.check_sound()?;
        if place == 0 || place > self.rows.len() as u64 {
            return refuse(20, place);
        }
        let instant = self.instant;
        let polled = &mut self.rows[place as usize - 1];
        if demand == 0 || demand > polled.row.c {
            return refuse(23, place);
        }
        if polled
            .last_release
            .is_some_and(|last| instant - last < polled.row.t)
        {
            return refuse(22, place);
        }
        if polled.remaining > 0 {
            return refuse(21, place);
        }
        polled.last_release = Some(instant);
        polled.demand = demand;
        polled.remaining = demand;
        Ok(())
    }

    pub fn tick(&mut self) -> Result<Vec<Finish>, Refusal> {
        self.check_sound()?;
        if self.instant == LAST_INSTANT {
            return refuse(24, 0);
        }
        self.instant += 1;
        Ok(self.serve())
    }

    /// One unit for each of the highest rows with work remaining, as many as there are cores.
    fn serve(&mut self) -> Vec<Finish> {
        let mut finished = Vec::new();
        let mut free_cores = self.cores;
        for (index, polled) in self.rows.iter_mut().enumerate() {
            if polled.remaining == 0 || free_cores == 0 {
                continue;
            }
            free_cores -= 1;
            polled.remaining -= 1;
            if let (0, Some(release)) = (polled.remaining, polled.last_release) {
                finished.push(Finish {
                    place: index + 1,
                    response: self.instant - release,
                });
            }
        }
        finished
    }

    fn check_sound(&self) -> Result<(), Refusal> {
        if !self.broken().is_empty() {
            return refuse(29, 0);
        }
        Ok(())
    }

    /// What of number 29 the bench breaks, each clause once for the bench or once for a row.
    pub fn broken(&self) -> Vec<Clause> {
        let rows: Vec<Row> = self.rows.iter().map(|polled| polled.row).collect();
        let mut clauses = Vec::new();
        if let Err(refusal) = check(self.cores, &rows) {
            clauses.push(Clause::Table(refusal.number));
        }
        if self.instant > LAST_INSTANT {
            clauses.push(Clause::Instant);
        }
        for polled in &self.rows {
            polled.add_broken(self.instant, &mut clauses);
        }
        clauses
    }
}

impl BenchRow {
    fn add_broken(&self, instant: u64, clauses: &mut Vec<Clause>) {
        if self.last_release.is_some_and(|last| last > instant) {
            clauses.push(Clause::LastRelease);
        }
        if self.demand > self.row.c {
            clauses.push(Clause::Demand);
        }
        if self.remaining > self.demand {
            clauses.push(Clause::Remainder);
        }
        if self.last_release.is_none() && self.remaining > 0 {
            clauses.push(Clause::NeverReleased);
        }
    }
}
