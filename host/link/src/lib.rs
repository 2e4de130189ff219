//! The proved core as a linked library, and what compares it with the model.

pub mod counts;
#[cfg(test)]
mod faults;
pub mod fuzzing;
pub mod ground;
pub mod guarded;
pub mod instructions;
#[cfg(test)]
mod job_outcomes;
pub mod large_job;
pub mod linked;
pub mod linked_jobs;
pub mod linked_replay;
pub mod linked_runner;
pub mod linked_simulation;
#[cfg(test)]
mod linked_vectors;
pub mod long_job;
pub mod on_off;
#[cfg(test)]
mod outcomes;
pub mod page_guarded;
pub mod pair;
pub mod picture;
pub mod proved_run;
pub mod ready_scenes;
#[cfg(test)]
mod replay_outcomes;
pub mod replay_pair;
pub mod replay_scenes;
pub mod rounds;
#[cfg(test)]
mod run_faults;
pub mod run_scenes;
pub mod runner_pair;
pub mod scenes;
pub mod serial_pair;
pub mod shrink;
#[cfg(test)]
mod simulation_outcomes;
pub mod simulation_pair;
pub mod simulation_picture;
pub mod simulation_scenes;
pub mod span_scenes;
#[cfg(test)]
mod take_faults;
pub mod take_scenes;
pub mod tool;
