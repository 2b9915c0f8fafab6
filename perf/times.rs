//! Times of calls.

use std::time::Instant;

const ROUNDS: usize = 25;
/// Each round of a contender takes about this long.
const ROUND_SECONDS: f64 = 0.02;

pub type Contender<'a> = Box<dyn FnMut() + 'a>;

/// The least time of one call over all rounds, in microseconds; the contenders take turns.
pub fn times(contenders: &mut [Contender]) -> Vec<f64> {
    let calls: Vec<usize> = contenders
        .iter_mut()
        .map(|call| {
            call();
            let start = Instant::now();
            call();
            (ROUND_SECONDS / start.elapsed().as_secs_f64().max(1e-9)) as usize + 1
        })
        .collect();
    let mut least = vec![f64::INFINITY; contenders.len()];
    for _ in 0..ROUNDS {
        for (n, call) in contenders.iter_mut().enumerate() {
            let start = Instant::now();
            for _ in 0..calls[n] {
                call();
            }
            let each = start.elapsed().as_secs_f64() * 1e6 / calls[n] as f64;
            least[n] = least[n].min(each);
        }
    }
    least
}
