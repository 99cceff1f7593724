//! A small seeded source of pseudo-random numbers (SplitMix64).

/// The environment variable with the seed of the tests.
pub const SEED_VARIABLE: &str = "VCGEN_SEED";

/// The seed where the environment names none.
const USUAL_SEED: u64 = 20_261_115;

/// The seed of the environment: a number, or `clock` for a new one each time.
/// It is printed, so that a run can be repeated.
pub fn seed_from_environment() -> u64 {
    let seed = match std::env::var(SEED_VARIABLE) {
        Err(_) => USUAL_SEED,
        Ok(text) if text == "clock" => seed_from_clock(),
        Ok(text) => text.parse().expect("VCGEN_SEED is a number or clock"),
    };
    crate::tell(format!(
        "seed {seed} (set {SEED_VARIABLE} to repeat or change it)"
    ));
    seed
}

/// The environment variable with the number of cases of the tests that go by it.
pub const CASES_VARIABLE: &str = "VCGEN_CASES";

/// The number of cases of the environment, or the usual one.
pub fn cases_from_environment(usual: u64) -> u64 {
    let named = std::env::var(CASES_VARIABLE);
    named.map_or(usual, |text| text.parse().expect("VCGEN_CASES is a number"))
}

fn seed_from_clock() -> u64 {
    let since = std::time::SystemTime::now().duration_since(std::time::UNIX_EPOCH);
    since.expect("a clock after 1970").as_nanos() as u64
}

#[derive(Clone, Debug)]
pub struct Prng {
    state: u64,
}

impl Prng {
    pub fn new(seed: u64) -> Prng {
        Prng { state: seed }
    }

    /// The source of one case: any case can be repeated without those before.
    pub fn for_case(seed: u64, case: u64) -> Prng {
        let mut source = Prng::new(seed);
        let mixed = source
            .number()
            .wrapping_add(case.wrapping_mul(0xD134_2543_DE82_EF95));
        let mut source = Prng::new(mixed);
        source.number();
        source
    }

    pub fn number(&mut self) -> u64 {
        self.state = self.state.wrapping_add(0x9E37_79B9_7F4A_7C15);
        let mut z = self.state;
        z = (z ^ (z >> 30)).wrapping_mul(0xBF58_476D_1CE4_E5B9);
        z = (z ^ (z >> 27)).wrapping_mul(0x94D0_49BB_1331_11EB);
        z ^ (z >> 31)
    }

    /// A number from 0 to `bound` less 1.
    pub fn below(&mut self, bound: usize) -> usize {
        assert!(bound > 0);
        (self.number() % bound as u64) as usize
    }

    /// A number from `low` to `high`, both included.
    pub fn between(&mut self, low: i32, high: i32) -> i32 {
        let span = (i64::from(high) - i64::from(low) + 1) as u64;
        (i64::from(low) + (self.number() % span) as i64) as i32
    }

    /// True once in `times` on average.
    pub fn once_in(&mut self, times: usize) -> bool {
        self.below(times) == 0
    }

    pub fn pick<T: Copy>(&mut self, from: &[T]) -> T {
        from[self.below(from.len())]
    }

    /// A word: often small, sometimes at an edge, sometimes any.
    pub fn word(&mut self) -> i32 {
        match self.below(9) {
            0..=3 => self.between(-3, 50),
            4 => self.between(120, 260),
            5 => self.pick(&EDGES),
            6 => self.pick(&KINDS),
            7 => self.between(256, 1_030),
            _ => self.number() as i32,
        }
    }
}

/// Where what a number may be begins or ends: words, variables, frozen ones,
/// rows.
const EDGES: [i32; 12] = [
    i32::MIN,
    i32::MAX,
    -1,
    0,
    127,
    128,
    255,
    256,
    1_023,
    1_024,
    2_047,
    2_048,
];

/// The kinds that the document lists.
pub const KINDS: [i32; 28] = [
    1, 2, 3, 4, 5, 6, 7, 8, 9, 10, 16, 17, 18, 19, 20, 21, 22, 23, 24, 25, 32, 33, 34, 35, 36, 37,
    38, 48,
];
