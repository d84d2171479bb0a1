//! The fixed generator of PROTOCOL.md. No number in it ever reaches 2^32.

/// Three small generators, mixed into one number below 1,000,003.
#[derive(Clone, Debug)]
pub struct Chance {
    x: u64,
    y: u64,
    z: u64,
}

pub const MODULUS: u64 = 1_000_003;

impl Chance {
    /// Starts the generator for one session, by the run's seed and the session's index.
    pub fn start(seed: u64, index: u64) -> Chance {
        let s = seed % MODULUS;
        let j = index % MODULUS;
        let mut chance = Chance {
            x: 1 + (31 * s + 17 * j + 1) % 30_268,
            y: 1 + (101 * s + 59 * j + 7) % 30_306,
            z: 1 + (211 * s + 131 * j + 13) % 30_322,
        };
        for _ in 0..20 {
            chance.next();
        }
        chance
    }

    /// Gives the next number, 0 to 1,000,002.
    pub fn next(&mut self) -> u64 {
        self.x = 171 * self.x % 30_269;
        self.y = 172 * self.y % 30_307;
        self.z = 170 * self.z % 30_323;
        (32_768 * self.x + 181 * self.y + self.z) % MODULUS
    }

    /// Gives a number from 0 to n − 1. The n must be 1 to 1,000,003.
    pub fn draw(&mut self, n: u64) -> u64 {
        self.next() % n
    }
}

/// The first five numbers of session 0 of the run with seed 1.
pub const FIRST_OF_SEED_1: [u64; 5] = [235_521, 609_809, 54_991, 887_673, 445_483];
