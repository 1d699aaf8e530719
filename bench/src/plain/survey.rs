//! Words, throws, scale, weights and reports.

use super::{Design, Fault, Row, Share};

/// The xorshift32 generator, with so many words.
pub struct Generator {
    state: u32,
    left: u32,
}

impl Generator {
    pub fn new(seed: u32, count: u32) -> Generator {
        Generator { state: seed, left: if seed == 0 { 0 } else { count } }
    }

    fn word(&mut self) -> Option<u32> {
        self.left = self.left.checked_sub(1)?;
        self.state ^= self.state << 13;
        self.state ^= self.state >> 17;
        self.state ^= self.state << 5;
        Some(self.state)
    }

    pub fn throw(&mut self, ways: u32) -> Result<u32, Fault> {
        let end = (1u64 << 32) / u64::from(ways) * u64::from(ways);
        while let Some(word) = self.word() {
            if u64::from(word) < end {
                return Ok(word % ways);
            }
        }
        Err(Fault::of(21))
    }
}

fn gcd(mut a: u64, mut b: u64) -> u64 {
    while b != 0 {
        (a, b) = (b, a % b);
    }
    a
}

fn lowest_terms((numerator, denominator): Share) -> Share {
    let both = gcd(numerator, denominator);
    (numerator / both, denominator / both)
}

// The least common multiple of the numerators.
fn scale_of(lowest: &[Share]) -> Result<u64, Fault> {
    let mut scale = 1;
    for (p, _) in lowest {
        scale *= p / gcd(scale, *p);
        if scale > 1_000_000 {
            return Err(Fault::of(22));
        }
    }
    Ok(scale)
}

fn weights_of(lowest: &[Share], scale: u64) -> Result<Vec<u64>, Fault> {
    let mut weights = Vec::with_capacity(lowest.len());
    for (k, (p, q)) in lowest.iter().enumerate() {
        let weight = u128::from(scale) * u128::from(*q) / u128::from(*p);
        if weight > 1_000_000_000 {
            return Err(Fault::at(23, k));
        }
        weights.push(weight as u64);
    }
    Ok(weights)
}

/// A design that was started on a list, with scale and design weights.
pub struct Survey<D> {
    pub design: D,
    pub scale: u64,
    pub weights: Vec<u64>,
}

impl<D: Design> Survey<D> {
    pub fn start(mut design: D, list: &[Row], n: u32) -> Result<Survey<D>, Fault> {
        design.begin(list, n)?;
        let shares = (0..list.len()).map(|k| design.share(k)).collect::<Result<Vec<_>, _>>()?;
        let lowest: Vec<Share> = shares.into_iter().map(lowest_terms).collect();
        let scale = scale_of(&lowest)?;
        let weights = weights_of(&lowest, scale)?;
        Ok(Survey { design, scale, weights })
    }

    /// Draws to the outcome.
    pub fn draw_out(&mut self, source: &mut Generator) -> Result<(), Fault> {
        loop {
            match self.design.ways() {
                0 => return Ok(()),
                ways => {
                    let d = source.throw(ways)?;
                    self.design.step(d)?;
                }
            }
        }
    }

    /// The report of amounts, of a run that has come to its outcome.
    pub fn report(&self, amounts: &[i32]) -> Result<i64, Fault> {
        if self.design.ways() != 0 {
            return Err(Fault::of(24));
        }
        if amounts.len() != self.weights.len() {
            return Err(Fault::of(25));
        }
        if let Some(k) = amounts.iter().position(|amount| amount.unsigned_abs() > 1_000_000) {
            return Err(Fault::at(26, k));
        }
        let mut sum = 0;
        for (k, (weight, amount)) in self.weights.iter().zip(amounts).enumerate() {
            if self.design.taken(k)? {
                sum += *weight as i64 * i64::from(*amount);
            }
        }
        Ok(sum)
    }
}
