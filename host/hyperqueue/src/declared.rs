//! The functions of the library, as `include/hyperqueue.h` declares them. The
//! other modules have them as safe functions.

#[link(name = "hyperqueue", kind = "static")]
extern "C" {
    pub fn hq_open(words: *mut u32, len: usize, length: u32, segments: u32) -> u64;
    pub fn hq_spawn(words: *mut u32, len: usize, task: u32, rights: u32) -> u64;
    pub fn hq_push(
        words: *mut u32,
        len: usize,
        task: u32,
        queue: u32,
        values: *const u32,
        count: usize,
    ) -> u64;
    pub fn hq_take(words: *mut u32, len: usize, task: u32, queue: u32, keep: u32) -> u64;
    pub fn hq_sync(words: *mut u32, len: usize, task: u32) -> u64;
    pub fn hq_finish(words: *mut u32, len: usize, task: u32) -> u64;
    pub fn hq_left(words: *mut u32, len: usize, queue: u32, index: u32) -> u64;
    pub fn hq_job_test(job: *const u8, len: usize) -> u64;
    pub fn hq_job_open(
        job: *const u8,
        job_len: usize,
        words: *mut u32,
        len: usize,
        runner: *mut u32,
        runner_len: usize,
    ) -> u64;
    pub fn hq_job_step(
        job: *const u8,
        job_len: usize,
        words: *mut u32,
        len: usize,
        runner: *mut u32,
        runner_len: usize,
        task: u32,
    ) -> u64;
    pub fn hq_job_run(
        job: *const u8,
        job_len: usize,
        words: *mut u32,
        len: usize,
        runner: *mut u32,
        runner_len: usize,
        tasks: *const u32,
        count: usize,
        answers: *mut u64,
        answers_len: usize,
    ) -> u64;
    pub fn hq_job_ready(
        job: *const u8,
        job_len: usize,
        words: *const u32,
        len: usize,
        runner: *const u32,
        runner_len: usize,
        out: *mut u32,
    ) -> u64;
    pub fn hq_replay(
        job: *const u8,
        job_len: usize,
        trace: *const u8,
        trace_len: usize,
        words: *mut u32,
        len: usize,
        runner: *mut u32,
        runner_len: usize,
    ) -> u64;
    pub fn hq_simulate(
        job: *const u8,
        job_len: usize,
        workers: u32,
        words: *mut u32,
        len: usize,
        runner: *mut u32,
        runner_len: usize,
        working: *mut u32,
        working_len: usize,
        out: *mut u64,
    ) -> u64;
    pub fn hq_run_serially(
        job: *const u8,
        len: usize,
        working: *mut u32,
        working_len: usize,
        answers: *mut u32,
        answers_len: usize,
    ) -> u64;
}
