//! The library's simulation with its answer in one number, and the model's answer
//! in that form.

use host::simulate::Simulated;
use hyperqueue::simulation::simulate_out;

/// The memories are those of the core, of the runner and for working.
pub fn simulate(
    job: &[u8],
    workers: u32,
    [core, runner, working]: [&mut [u32]; 3],
    out: &mut [u64; 3],
) -> u64 {
    simulate_out(job, workers, core, runner, working, out).packed()
}

/// The model's answer as the library gives it.
pub fn packed(simulated: Simulated) -> u64 {
    u64::from(simulated.status()) << 32
}
