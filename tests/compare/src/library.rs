//! The functions of libfullerecru.a, as include/fullerecru.h says, and of
//! libarith_c.a.

/// Numbers of a planner's memory.
pub const NUMBERS: usize = 848;
/// Numbers of a machine's limits.
pub const LIMITS: usize = 9;
/// Moves of a block, numbers of a record beside them, and of a block given out
/// beside them.
pub const MOVES: usize = 3;
pub const RECORD: usize = 3;
pub const GIVEN: usize = 11;
/// Numbers of a trace's row, and of the list for its plan.
pub const ROW: usize = 15;
pub const PLAN: usize = 65;
/// Numbers of a host's memory, and doubles of a point.
pub const HOST: usize = 4;
pub const POINT: usize = 3;
/// Numbers of a report, and figures of a tape.
pub const REPORT: usize = 8;
pub const FIGURES: usize = 7;
/// Numbers of a row of a tape's list.
pub const LISTED: usize = 13;
/// The version of the header, 1,000,000 × major + 1,000 × minor + patch.
pub const VERSION: u64 = 12_000;

extern "C" {
    pub fn fullerecru_version() -> u64;
    pub fn fullerecru_fresh(
        memory: *mut u64,
        limits: *const u64,
        steps: *const u8,
        count: usize,
    ) -> u64;
    pub fn fullerecru_add(
        memory: *mut u64,
        x: i64,
        y: i64,
        z: i64,
        feed: u64,
        radius: u64,
        mark: u64,
    ) -> u64;
    pub fn fullerecru_take(memory: *mut u64, moves: *mut i64, numbers: *mut u64) -> u64;
    pub fn fullerecru_told(memory: *const u64) -> u64;
    pub fn fullerecru_shown(memory: *const u64, list: *mut u64, count: usize) -> u64;
    pub fn fullerecru_read_limits(bytes: *const u8, count: usize, limits: *mut u64) -> u64;
    pub fn fullerecru_write_limits(limits: *const u64, bytes: *mut u8, count: usize) -> u64;
    pub fn fullerecru_read_record(
        bytes: *const u8,
        count: usize,
        moves: *mut i64,
        numbers: *mut u64,
    ) -> u64;
    pub fn fullerecru_write_record(
        x: i64,
        y: i64,
        z: i64,
        feed: u64,
        radius: u64,
        mark: u64,
        bytes: *mut u8,
        count: usize,
    ) -> u64;
    pub fn fullerecru_plan_tape(
        tape: *const u8,
        count: usize,
        steps: *const u8,
        steps_count: usize,
        list: *mut u64,
        junctions: usize,
        place: *mut u64,
    ) -> u64;
    pub fn fullerecru_list_tape(
        tape: *const u8,
        count: usize,
        steps: *const u8,
        steps_count: usize,
        rows: *mut u64,
        numbers: usize,
        place: *mut u64,
    ) -> u64;
    pub fn fullerecru_replay(
        trace: *const u8,
        count: usize,
        steps: *const u8,
        steps_count: usize,
        answers: *mut u64,
        numbers: usize,
        plan: *mut u64,
        junctions: usize,
        told: *mut u64,
    ) -> u64;
    pub fn fullerecru_text(
        text: *const u8,
        count: usize,
        records: *mut u8,
        room: usize,
        blocks: *mut u64,
        place: *mut u64,
    ) -> u64;
    pub fn fullerecru_host_fresh(host: *mut u64);
    pub fn fullerecru_rapid(
        memory: *mut u64,
        host: *mut u64,
        target: *const f64,
        offset: *const f64,
    ) -> u64;
    pub fn fullerecru_feed(
        memory: *mut u64,
        host: *mut u64,
        target: *const f64,
        offset: *const f64,
        speed: f64,
    ) -> u64;
    pub fn fullerecru_curve_chord(
        memory: *mut u64,
        host: *mut u64,
        target: *const f64,
        offset: *const f64,
        speed: f64,
        radius: f64,
    ) -> u64;
    pub fn fullerecru_position(host: *const u64, point: *mut f64);
    pub fn fullerecru_report_fresh(report: *mut u64);
    pub fn fullerecru_report_add(
        report: *mut u64,
        tape: *const u8,
        count: usize,
        steps: *const u8,
        steps_count: usize,
        figures: *mut u64,
        place: *mut u64,
    ) -> u64;
    pub fn fullerecru_held_by(
        tape: *const u8,
        count: usize,
        steps: *const u8,
        steps_count: usize,
        list: *mut u64,
        junctions: usize,
        place: *mut u64,
    ) -> u64;
}

extern "C" {
    pub fn arith_root(n: u64) -> u64;
}
