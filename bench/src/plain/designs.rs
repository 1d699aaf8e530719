//! The three plain designs.

use super::{Design, Fault, Row, Share, check_list, check_step};

/// What each unit holds of the total.
#[derive(Default)]
struct Held {
    total: u64,
    goals: Vec<u64>,
}

impl Held {
    fn begin(&mut self, list: &[Row], n: u32) -> Result<(), Fault> {
        self.goals.clear();
        let total = check_list(list, n)?;
        for (k, row) in list.iter().enumerate() {
            let goal = u64::from(n) * u64::from(row.size);
            if goal > total {
                self.goals.clear();
                return Err(Fault::at(6, k));
            }
            self.goals.push(goal);
        }
        self.total = total;
        Ok(())
    }

    fn share(&self, k: usize) -> Result<Share, Fault> {
        let goal = self.goals.get(k).ok_or(Fault::of(19))?;
        Ok((*goal, self.total))
    }
}

/// One throw, and points a total apart.
#[derive(Default)]
pub struct Systematic {
    held: Held,
    open: bool,
}

impl Design for Systematic {
    fn begin(&mut self, list: &[Row], n: u32) -> Result<(), Fault> {
        self.open = false;
        self.held.begin(list, n)?;
        self.open = true;
        Ok(())
    }

    fn ways(&self) -> u32 {
        if self.open { self.held.total as u32 } else { 0 }
    }

    fn step(&mut self, d: u32) -> Result<(), Fault> {
        check_step(d, self.ways())?;
        let total = self.held.total;
        let mut point = u64::from(d);
        let mut sum = 0;
        for goal in &mut self.held.goals {
            sum += *goal;
            let taken = point < sum;
            *goal = if taken { total } else { 0 };
            if taken {
                point += total;
            }
        }
        self.open = false;
        Ok(())
    }

    fn share(&self, k: usize) -> Result<Share, Fault> {
        self.held.share(k)
    }
}

/// Duels of neighbours.
#[derive(Default)]
pub struct Pivotal {
    held: Held,
    pending: Option<usize>,
    called: usize,
}

impl Pivotal {
    // Calls units until one has to duel; that one is then `called`.
    fn go_on(&mut self) {
        while self.called < self.held.goals.len() {
            if self.held.goals[self.called] != self.held.total {
                if self.pending.is_some() {
                    return;
                }
                self.pending = Some(self.called);
            }
            self.called += 1;
        }
    }

    fn duel(&self) -> Option<(usize, u64, u64)> {
        let b = *self.held.goals.get(self.called)?;
        let pending = self.pending?;
        Some((pending, self.held.goals[pending], b))
    }
}

impl Design for Pivotal {
    fn begin(&mut self, list: &[Row], n: u32) -> Result<(), Fault> {
        self.pending = None;
        self.called = 0;
        self.held.begin(list, n)?;
        self.go_on();
        Ok(())
    }

    fn ways(&self) -> u32 {
        let total = self.held.total;
        match self.duel() {
            None => 0,
            Some((_, a, b)) if a + b < total => (a + b) as u32,
            Some((_, a, b)) => (2 * total - a - b) as u32,
        }
    }

    fn step(&mut self, d: u32) -> Result<(), Fault> {
        check_step(d, self.ways())?;
        let total = self.held.total;
        let Some((pending, a, b)) = self.duel() else {
            return Err(Fault::of(17));
        };
        let called = self.called;
        let d = u64::from(d);
        let (winner, loser, of_winner, of_loser, stays) = if a + b < total {
            if d < a { (pending, called, a + b, 0, pending) } else { (called, pending, a + b, 0, called) }
        } else if d < total - b {
            (pending, called, total, a + b - total, called)
        } else {
            (called, pending, total, a + b - total, pending)
        };
        self.held.goals[winner] = of_winner;
        self.held.goals[loser] = of_loser;
        self.pending = if self.held.goals[stays] == 0 { None } else { Some(stays) };
        self.called += 1;
        self.go_on();
        Ok(())
    }

    fn share(&self, k: usize) -> Result<Share, Fault> {
        self.held.share(k)
    }
}

/// A throw for each unit.
#[derive(Default)]
pub struct Poisson {
    held: Held,
    called: usize,
}

impl Design for Poisson {
    fn begin(&mut self, list: &[Row], n: u32) -> Result<(), Fault> {
        self.called = 0;
        self.held.begin(list, n)
    }

    fn ways(&self) -> u32 {
        if self.called < self.held.goals.len() { self.held.total as u32 } else { 0 }
    }

    fn step(&mut self, d: u32) -> Result<(), Fault> {
        check_step(d, self.ways())?;
        let goal = &mut self.held.goals[self.called];
        *goal = if u64::from(d) < *goal { self.held.total } else { 0 };
        self.called += 1;
        Ok(())
    }

    fn share(&self, k: usize) -> Result<Share, Fault> {
        self.held.share(k)
    }
}
