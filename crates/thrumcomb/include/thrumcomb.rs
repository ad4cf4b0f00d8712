//! Thrumcomb for Rust: the seven public calls of libthrumcomb.a (made by `rt lib` in crates/thrumcomb, for x86-64 Linux), declared, and for
//! each a safe function. thrumcomb.h beside this file says what is lent, what is returned, what each refusal means, and how much stack a
//! call takes.

/// A refusal: its number, 1 to 19, and its place. Every lent number and byte keeps the content it had.
#[derive(Clone, Copy, Debug, PartialEq, Eq)]
pub struct Refusal {
    pub number: u32,
    pub place: u32,
}

/// The totals of a replay.
#[derive(Clone, Copy, Debug, PartialEq, Eq)]
pub struct Totals {
    pub met: usize,
    pub missed: usize,
    pub open: usize,
}

/// What the reader read, besides the numbers that it put into the lent rooms.
#[derive(Clone, Copy, Debug, PartialEq, Eq)]
pub struct Head {
    pub procs: u32,
    pub policy: u32,
    pub end: u32,
    pub tasks: usize,
    pub releases: usize,
}

/// A case as lent numbers: three a task in the order T, C, D, and two a release in the order time, task.
#[derive(Clone, Copy, Debug)]
pub struct Case<'a> {
    pub procs: u32,
    pub policy: u32,
    pub table: &'a [u32],
    pub end: u32,
    pub trace: &'a [u32],
}

/// Room that is long enough for every case: numbers for the counts, the replay and the reader, bytes for the writer and the converter.
pub const COUNTS_ROOM: usize = 32;
pub const REPLAY_ROOM: usize = 6000;
pub const TASK_ROOM: usize = 96;
pub const RELEASE_ROOM: usize = 4000;
pub const TEXT_ROOM: usize = 60000;

mod raw {
    extern "C" {
        pub fn thrumcomb_counts(
            procs: u32,
            table: *const u32,
            table_length: usize,
            out: *mut u32,
            out_length: usize,
            results: *mut [usize; 1],
            place: *mut u32,
        ) -> u32;

        pub fn thrumcomb_replay(
            procs: u32,
            policy: u32,
            table: *const u32,
            table_length: usize,
            end: u32,
            trace: *const u32,
            trace_length: usize,
            out: *mut u32,
            out_length: usize,
            results: *mut [usize; 3],
            place: *mut u32,
        ) -> u32;

        pub fn thrumcomb_running_set(
            procs: u32,
            policy: u32,
            table: *const u32,
            table_length: usize,
            end: u32,
            trace: *const u32,
            trace_length: usize,
            slot: u32,
            results: *mut [usize; 1],
            place: *mut u32,
        ) -> u32;

        pub fn thrumcomb_read(
            text: *const u8,
            text_length: usize,
            tasks: *mut u32,
            tasks_length: usize,
            releases: *mut u32,
            releases_length: usize,
            results: *mut [usize; 5],
            place: *mut u32,
        ) -> u32;

        pub fn thrumcomb_write(
            procs: u32,
            policy: u32,
            table: *const u32,
            table_length: usize,
            end: u32,
            trace: *const u32,
            trace_length: usize,
            out: *mut u8,
            out_length: usize,
            results: *mut [usize; 1],
            place: *mut u32,
        ) -> u32;

        pub fn thrumcomb_convert(
            text: *const u8,
            text_length: usize,
            out: *mut u8,
            out_length: usize,
            results: *mut [usize; 1],
            place: *mut u32,
        ) -> u32;

        pub fn thrumcomb_check_log(
            procs: u32,
            policy: u32,
            table: *const u32,
            table_length: usize,
            end: u32,
            trace: *const u32,
            trace_length: usize,
            log: *const u8,
            log_length: usize,
            place: *mut u32,
        ) -> u32;
    }
}

/// The results of a call, or its refusal, from the number that it returned.
fn told<const N: usize>(number: u32, results: [usize; N], place: u32) -> Result<[usize; N], Refusal> {
    match number {
        0 => Ok(results),
        _ => Err(Refusal { number, place }),
    }
}

/// The contention-free counts of a table, one number a task into `out`; returns the number of tasks.
pub fn counts(procs: u32, table: &[u32], out: &mut [u32]) -> Result<usize, Refusal> {
    let mut results = [0; 1];
    let mut place = 0;
    // SAFETY: each pointer and length are a slice's, and nothing that is written overlaps what else is lent.
    let number = unsafe {
        raw::thrumcomb_counts(
            procs,
            table.as_ptr(),
            table.len(),
            out.as_mut_ptr(),
            out.len(),
            &mut results,
            &mut place,
        )
    };
    told(number, results, place).map(|[tasks]| tasks)
}

/// The replay of a case, three numbers a release into `out`; returns the totals.
pub fn replay(case: Case<'_>, out: &mut [u32]) -> Result<Totals, Refusal> {
    let mut results = [0; 3];
    let mut place = 0;
    // SAFETY: as in `counts`.
    let number = unsafe {
        raw::thrumcomb_replay(
            case.procs,
            case.policy,
            case.table.as_ptr(),
            case.table.len(),
            case.end,
            case.trace.as_ptr(),
            case.trace.len(),
            out.as_mut_ptr(),
            out.len(),
            &mut results,
            &mut place,
        )
    };
    told(number, results, place).map(|[met, missed, open]| Totals { met, missed, open })
}

/// The running set of a named slot: bit (task - 1) for each task that runs.
pub fn running_set(case: Case<'_>, slot: u32) -> Result<u32, Refusal> {
    let mut results = [0; 1];
    let mut place = 0;
    // SAFETY: as in `counts`.
    let number = unsafe {
        raw::thrumcomb_running_set(
            case.procs,
            case.policy,
            case.table.as_ptr(),
            case.table.len(),
            case.end,
            case.trace.as_ptr(),
            case.trace.len(),
            slot,
            &mut results,
            &mut place,
        )
    };
    told(number, results, place).map(|[set]| set as u32)
}

/// The reader of a case text, its numbers into `tasks` and `releases`. One carriage return right before a newline is left out. Without a
/// policy line the policy is EDF; `convert` puts in the line that says so.
pub fn read(text: &[u8], tasks: &mut [u32], releases: &mut [u32]) -> Result<Head, Refusal> {
    let mut results = [0; 5];
    let mut place = 0;
    // SAFETY: as in `counts`.
    let number = unsafe {
        raw::thrumcomb_read(
            text.as_ptr(),
            text.len(),
            tasks.as_mut_ptr(),
            tasks.len(),
            releases.as_mut_ptr(),
            releases.len(),
            &mut results,
            &mut place,
        )
    };
    told(number, results, place).map(|[procs, policy, end, tasks, releases]| Head {
        procs: procs as u32,
        policy: policy as u32,
        end: end as u32,
        tasks,
        releases,
    })
}

/// The writer of a case text into `out`; returns the text's length.
pub fn write(case: Case<'_>, out: &mut [u8]) -> Result<usize, Refusal> {
    let mut results = [0; 1];
    let mut place = 0;
    // SAFETY: as in `counts`.
    let number = unsafe {
        raw::thrumcomb_write(
            case.procs,
            case.policy,
            case.table.as_ptr(),
            case.table.len(),
            case.end,
            case.trace.as_ptr(),
            case.trace.len(),
            out.as_mut_ptr(),
            out.len(),
            &mut results,
            &mut place,
        )
    };
    told(number, results, place).map(|[length]| length)
}

/// The converter of a case text that may have no policy line, which means EDF: into `out` the same text with the line that says so; returns
/// its length.
pub fn convert(text: &[u8], out: &mut [u8]) -> Result<usize, Refusal> {
    let mut results = [0; 1];
    let mut place = 0;
    // SAFETY: as in `counts`.
    let number = unsafe {
        raw::thrumcomb_convert(
            text.as_ptr(),
            text.len(),
            out.as_mut_ptr(),
            out.len(),
            &mut results,
            &mut place,
        )
    };
    told(number, results, place).map(|[length]| length)
}

/// The check of a slot log, returns as in a case text; there is nothing to return but that it is accepted.
pub fn check_log(case: Case<'_>, log: &[u8]) -> Result<(), Refusal> {
    let mut place = 0;
    // SAFETY: as in `counts`.
    let number = unsafe {
        raw::thrumcomb_check_log(
            case.procs,
            case.policy,
            case.table.as_ptr(),
            case.table.len(),
            case.end,
            case.trace.as_ptr(),
            case.trace.len(),
            log.as_ptr(),
            log.len(),
            &mut place,
        )
    };
    told(number, [], place).map(|[]| ())
}
