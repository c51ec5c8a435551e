//! The face for C. A slice goes over as its pointer and its length, an array as its pointer.
//!
//! SAFETY, for every call of this crate: each pointer comes from a reference together with its own length, what is lent
//! to be written to is borrowed for the call alone, and the library keeps no pointer.

extern "C" {
    pub fn durbizhan_room(
        axes: u64,
        bits: u64,
        frame_bits: u64,
        leaves: u64,
        balls: u64,
        answer: *mut [u64; 1],
    ) -> u64;

    pub fn durbizhan_leaves(words: *const u16, words_count: usize) -> u64;

    pub fn durbizhan_balls(words: *const u16, words_count: usize) -> u64;

    pub fn durbizhan_raw_one(
        axes: u64,
        bits: u64,
        frame_bits: u64,
        rows: *const i64,
        rows_count: usize,
        balls: *const i64,
        balls_count: usize,
        words: *const u16,
        words_count: usize,
        out: *mut u8,
        out_count: usize,
        answer: *mut [u64; 1],
    ) -> u64;

    pub fn durbizhan_raw_two(
        axes: u64,
        bits: u64,
        frame_bits: u64,
        rows: *const i64,
        rows_count: usize,
        balls: *const i64,
        balls_count: usize,
        first: *const u16,
        first_count: usize,
        second: *const u16,
        second_count: usize,
        out: *mut u8,
        out_count: usize,
        answer: *mut [u64; 1],
    ) -> u64;

    pub fn durbizhan_merged_one(
        axes: u64,
        bits: u64,
        frame_bits: u64,
        rows: *const i64,
        rows_count: usize,
        balls: *const i64,
        balls_count: usize,
        words: *const u16,
        words_count: usize,
        out: *mut u8,
        out_count: usize,
        answer: *mut [u64; 1],
    ) -> u64;

    pub fn durbizhan_merged_two(
        axes: u64,
        bits: u64,
        frame_bits: u64,
        rows: *const i64,
        rows_count: usize,
        balls: *const i64,
        balls_count: usize,
        first: *const u16,
        first_count: usize,
        second: *const u16,
        second_count: usize,
        out: *mut u8,
        out_count: usize,
        answer: *mut [u64; 1],
    ) -> u64;

    pub fn durbizhan_pruned_raw_one(
        axes: u64,
        bits: u64,
        frame_bits: u64,
        rows: *const i64,
        rows_count: usize,
        balls: *const i64,
        balls_count: usize,
        words: *const u16,
        words_count: usize,
        work: *mut i64,
        work_count: usize,
        out: *mut u8,
        out_count: usize,
        answer: *mut [u64; 3],
    ) -> u64;

    pub fn durbizhan_pruned_raw_two(
        axes: u64,
        bits: u64,
        frame_bits: u64,
        rows: *const i64,
        rows_count: usize,
        balls: *const i64,
        balls_count: usize,
        first: *const u16,
        first_count: usize,
        second: *const u16,
        second_count: usize,
        work: *mut i64,
        work_count: usize,
        out: *mut u8,
        out_count: usize,
        answer: *mut [u64; 3],
    ) -> u64;

    pub fn durbizhan_pruned_merged_one(
        axes: u64,
        bits: u64,
        frame_bits: u64,
        rows: *const i64,
        rows_count: usize,
        balls: *const i64,
        balls_count: usize,
        words: *const u16,
        words_count: usize,
        work: *mut i64,
        work_count: usize,
        out: *mut u8,
        out_count: usize,
        answer: *mut [u64; 3],
    ) -> u64;

    pub fn durbizhan_pruned_merged_two(
        axes: u64,
        bits: u64,
        frame_bits: u64,
        rows: *const i64,
        rows_count: usize,
        balls: *const i64,
        balls_count: usize,
        first: *const u16,
        first_count: usize,
        second: *const u16,
        second_count: usize,
        work: *mut i64,
        work_count: usize,
        out: *mut u8,
        out_count: usize,
        answer: *mut [u64; 3],
    ) -> u64;

    pub fn durbizhan_verdict(
        axes: u64,
        bits: u64,
        frame_bits: u64,
        rows: *const i64,
        rows_count: usize,
        balls: *const i64,
        balls_count: usize,
        first: *const u16,
        first_count: usize,
        second: *const u16,
        second_count: usize,
        first_frame: u64,
        last_frame: u64,
        out: *mut u8,
        out_count: usize,
        answer: *mut [u64; 5],
    ) -> u64;

    pub fn durbizhan_verdict_at_once(
        axes: u64,
        bits: u64,
        frame_bits: u64,
        rows: *const i64,
        rows_count: usize,
        balls: *const i64,
        balls_count: usize,
        first: *const u16,
        first_count: usize,
        second: *const u16,
        second_count: usize,
        first_frame: u64,
        last_frame: u64,
        answer: *mut [u64; 4],
    ) -> u64;

    pub fn durbizhan_ends_at_once(
        axes: u64,
        bits: u64,
        frame_bits: u64,
        rows: *const i64,
        rows_count: usize,
        balls: *const i64,
        balls_count: usize,
        first: *const u16,
        first_count: usize,
        second: *const u16,
        second_count: usize,
        first_frame: u64,
        last_frame: u64,
        answer: *mut [u64; 3],
    ) -> u64;

    pub fn durbizhan_contacts(
        axes: u64,
        bits: u64,
        frame_bits: u64,
        rows: *const i64,
        rows_count: usize,
        balls: *const i64,
        balls_count: usize,
        first: *const u16,
        first_count: usize,
        second: *const u16,
        second_count: usize,
        first_frame: u64,
        last_frame: u64,
        answer: *mut [u64; 3],
    ) -> u64;

    pub fn durbizhan_mover(
        axes: u64,
        bits: u64,
        frame_bits: u64,
        near_x: f64,
        near_y: f64,
        near_z: f64,
        far_x: f64,
        far_y: f64,
        far_z: f64,
        displacement_x: f64,
        displacement_y: f64,
        displacement_z: f64,
        moments: *const u64,
        moments_count: usize,
        corners: *const f64,
        corners_count: usize,
        rows: *const i64,
        rows_count: usize,
        balls: *const i64,
        balls_count: usize,
        words: *const u16,
        words_count: usize,
        out: *mut u8,
        out_count: usize,
        answer: *mut [u64; 5],
    ) -> u64;

    pub fn durbizhan_well_formed(
        axes: u64,
        bits: u64,
        frame_bits: u64,
        expression: *const u8,
        expression_count: usize,
    ) -> u64;

    pub fn durbizhan_numbers(
        axes: u64,
        bits: u64,
        frame_bits: u64,
        expression: *const u8,
        expression_count: usize,
        first_frame: u64,
        last_frame: u64,
        answer: *mut [u64; 5],
    ) -> u64;

    pub fn durbizhan_report(
        axes: u64,
        bits: u64,
        frame_bits: u64,
        expressions: *const u8,
        expressions_count: usize,
        first_frame: u64,
        last_frame: u64,
        counts: *mut u64,
        counts_count: usize,
        answer: *mut [u64; 2],
    ) -> u64;

    pub fn durbizhan_colour(
        axes: u64,
        bits: u64,
        frame_bits: u64,
        expression: *const u8,
        expression_count: usize,
        x: u64,
        y: u64,
        z: u64,
        t: u64,
        answer: *mut [u64; 1],
    ) -> u64;

    pub fn durbizhan_part(
        axes: u64,
        bits: u64,
        frame_bits: u64,
        expression: *const u8,
        expression_count: usize,
        path: *const u8,
        path_count: usize,
        answer: *mut [u64; 2],
    ) -> u64;

    pub fn durbizhan_sweep(
        axes: u64,
        bits: u64,
        frame_bits: u64,
        axis: u64,
        expression: *const u8,
        expression_count: usize,
        out: *mut u8,
        out_count: usize,
        answer: *mut [u64; 4],
    ) -> u64;

    pub fn durbizhan_octree_export(
        axes: u64,
        bits: u64,
        frame_bits: u64,
        expression: *const u8,
        expression_count: usize,
        out: *mut u8,
        out_count: usize,
        answer: *mut [u64; 1],
    ) -> u64;

    pub fn durbizhan_octree_import(
        axes: u64,
        bits: u64,
        frame_bits: u64,
        octree: *const u8,
        octree_count: usize,
        out: *mut u8,
        out_count: usize,
        answer: *mut [u64; 1],
    ) -> u64;

    pub fn durbizhan_merge(
        axes: u64,
        bits: u64,
        frame_bits: u64,
        expression: *const u8,
        expression_count: usize,
        out: *mut u8,
        out_count: usize,
        answer: *mut [u64; 2],
    ) -> u64;

    pub fn durbizhan_scene(
        bytes: *const u8,
        bytes_count: usize,
        rows: *mut [i64; 1280],
        balls: *mut [i64; 256],
        first: *mut [u16; 255],
        second: *mut [u16; 255],
        answer: *mut [u64; 10],
    ) -> u64;

    pub fn durbizhan_lines(scene: *const u8, scene_count: usize, out: *mut [u8; 256]) -> u64;

    pub fn durbizhan_shape_read(
        bytes: *const u8,
        bytes_count: usize,
        out: *mut u8,
        out_count: usize,
        answer: *mut [u64; 4],
    ) -> u64;

    pub fn durbizhan_shape_write(
        axes: u64,
        bits: u64,
        frame_bits: u64,
        expression: *const u8,
        expression_count: usize,
        out: *mut u8,
        out_count: usize,
        answer: *mut [u64; 1],
    ) -> u64;

    pub fn durbizhan_box(
        near_x: f64,
        near_y: f64,
        near_z: f64,
        far_x: f64,
        far_y: f64,
        far_z: f64,
        displacement_x: f64,
        displacement_y: f64,
        displacement_z: f64,
        rows: *mut [i64; 30],
    ) -> u64;

    pub fn durbizhan_cut(
        normal_x: f64,
        normal_y: f64,
        normal_z: f64,
        offset: f64,
        displacement_x: f64,
        displacement_y: f64,
        displacement_z: f64,
        row: *mut [i64; 5],
    ) -> u64;
}
