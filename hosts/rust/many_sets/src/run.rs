//! How long a run is, and from which seed.

use small_sets::Random;
use std::env;

/// The generator of a test; tests differ by their `salt`. `PROBE_SEED` gives
/// another seed.
pub fn random(salt: u64) -> Random {
    Random::new(setting("PROBE_SEED", 0x5eed).wrapping_mul(256).wrapping_add(salt))
}

/// How many turns a run takes for so many of a short one: `PROBE_TIMES` as many.
pub fn turns(short: u64) -> u64 {
    short * setting("PROBE_TIMES", 1)
}

fn setting(name: &str, default: u64) -> u64 {
    match env::var(name) {
        Ok(text) => text.parse().unwrap_or_else(|_| panic!("{name} is no number: {text}")),
        Err(_) => default,
    }
}
