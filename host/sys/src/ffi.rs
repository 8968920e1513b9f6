//! The functions of libcounter.a as C sees them. A slice is a pointer and a length in elements,
//! slots of fixed length are a pointer; each function answers 0 or the number of the cause.

use crate::{RECORD_WORDS, TEAMS};

unsafe extern "C" {
    pub fn counter_header(image: *const u8, image_len: usize, fields: *mut [u8; 0x440]) -> u32;
    pub fn counter_open(
        image: *const u8,
        image_len: usize,
        words: *mut u32,
        words_len: usize,
        answer: *mut [u32; 5],
    ) -> u32;
    pub fn counter_fault(
        image: *const u8,
        image_len: usize,
        words: *mut u32,
        words_len: usize,
        answer: *mut [u32; 4],
    ) -> u32;
    pub fn counter_totals(
        image: *const u8,
        image_len: usize,
        words: *mut u32,
        words_len: usize,
        answer: *mut [u32; 2],
    ) -> u32;
    pub fn counter_program(
        image: *const u8,
        image_len: usize,
        words: *mut u32,
        words_len: usize,
        answer: *mut [u32; 2],
    ) -> u32;
    pub fn counter_entry(
        image: *const u8,
        image_len: usize,
        words: *mut u32,
        words_len: usize,
        number: u32,
        answer: *mut [u32; 4],
    ) -> u32;
    pub fn counter_lookup(
        image: *const u8,
        image_len: usize,
        words: *mut u32,
        words_len: usize,
        start: u32,
        path: *const u8,
        path_len: usize,
        answer: *mut [u32; 4],
    ) -> u32;
    pub fn counter_entries(
        image: *const u8,
        image_len: usize,
        words: *mut u32,
        words_len: usize,
        list: *mut u32,
        list_len: usize,
        answer: *mut [u32; 5],
    ) -> u32;
    pub fn counter_list(
        image: *const u8,
        image_len: usize,
        words: *mut u32,
        words_len: usize,
        text: *mut u8,
        text_len: usize,
        answer: *mut [u64; 1],
    ) -> u32;
    pub fn counter_report(
        image: *const u8,
        image_len: usize,
        words: *mut u32,
        words_len: usize,
        text: *mut u8,
        text_len: usize,
        answer: *mut [u64; 1],
    ) -> u32;
    pub fn counter_table_anew(
        image: *const u8,
        image_len: usize,
        words: *mut u32,
        words_len: usize,
        table: *mut u8,
        table_len: usize,
        length: *mut [u32; 1],
    ) -> u32;

    pub fn counter_unit(text: *const u8, text_len: usize, unit: *mut [u32; 2]) -> u32;
    pub fn counter_component(path: *const u8, path_len: usize, length: *mut [u64; 1]) -> u32;
    pub fn counter_name(name: *const u8, name_len: usize) -> u32;

    pub fn counter_free_regions(
        image: *const u8,
        image_len: usize,
        words: *mut u32,
        words_len: usize,
        list: *mut u32,
        list_len: usize,
        answer: *mut [u32; 1],
    ) -> u32;
    pub fn counter_free_clusters(
        image: *const u8,
        image_len: usize,
        words: *mut u32,
        words_len: usize,
        list: *mut u32,
        list_len: usize,
        answer: *mut [u32; 1],
    ) -> u32;
    pub fn counter_max_region_size(
        image: *const u8,
        image_len: usize,
        words: *mut u32,
        words_len: usize,
        offset: u32,
        size: u32,
        answer: *mut [u32; 1],
    ) -> u32;
    pub fn counter_max_file_size(
        image: *const u8,
        image_len: usize,
        words: *mut u32,
        words_len: usize,
        number: u32,
        answer: *mut [u32; 1],
    ) -> u32;
    pub fn counter_allocate(
        image: *const u8,
        image_len: usize,
        words: *mut u32,
        words_len: usize,
        size: u32,
        align: u32,
        answer: *mut [u32; 2],
    ) -> u32;
    pub fn counter_clear(
        image: *const u8,
        image_len: usize,
        words: *mut u32,
        words_len: usize,
        size: u32,
        budget: u32,
        answer: *mut [u32; 4],
    ) -> u32;
    pub fn counter_open_file(
        image: *const u8,
        image_len: usize,
        words: *mut u32,
        words_len: usize,
        number: u32,
        window: *mut [u64; 3],
    ) -> u32;
    pub fn counter_open_dol(
        image: *const u8,
        image_len: usize,
        words: *mut u32,
        words_len: usize,
        header: *mut [u32; 57],
        window: *mut [u64; 3],
    ) -> u32;

    pub fn counter_seek_start(window: *mut [u64; 3], position: u64) -> u32;
    pub fn counter_seek_current(window: *mut [u64; 3], distance: i64) -> u32;
    pub fn counter_seek_end(window: *mut [u64; 3], distance: i64) -> u32;
    pub fn counter_read(
        window: *mut [u64; 3],
        image: *const u8,
        image_len: usize,
        buf: *mut u8,
        buf_len: usize,
        answer: *mut [u64; 1],
    ) -> u32;

    pub fn counter_make_record(
        image: *const u8,
        image_len: usize,
        words: *mut u32,
        words_len: usize,
        limits: *const [u32; TEAMS],
        shares: *const [u32; TEAMS],
        record: *mut [u32; RECORD_WORDS],
    ) -> u32;
    pub fn counter_insert_file(
        image: *mut u8,
        image_len: usize,
        words: *mut u32,
        words_len: usize,
        bytes: *mut u8,
        bytes_len: usize,
        record: *mut [u32; RECORD_WORDS],
        team: u32,
        parent: u32,
        name: *const u8,
        name_len: usize,
        answer: *mut [u32; 1],
    ) -> u32;
    pub fn counter_insert_directory(
        image: *mut u8,
        image_len: usize,
        words: *mut u32,
        words_len: usize,
        bytes: *mut u8,
        bytes_len: usize,
        record: *mut [u32; RECORD_WORDS],
        team: u32,
        parent: u32,
        name: *const u8,
        name_len: usize,
        answer: *mut [u32; 1],
    ) -> u32;
    pub fn counter_make_directories(
        image: *mut u8,
        image_len: usize,
        words: *mut u32,
        words_len: usize,
        bytes: *mut u8,
        bytes_len: usize,
        record: *mut [u32; RECORD_WORDS],
        team: u32,
        start: u32,
        path: *const u8,
        path_len: usize,
        answer: *mut [u32; 1],
    ) -> u32;
    pub fn counter_move_file(
        image: *mut u8,
        image_len: usize,
        words: *mut u32,
        words_len: usize,
        bytes: *mut u8,
        bytes_len: usize,
        record: *mut [u32; RECORD_WORDS],
        team: u32,
        number: u32,
        new_offset: u32,
    ) -> u32;
    pub fn counter_resize_file(
        image: *mut u8,
        image_len: usize,
        words: *mut u32,
        words_len: usize,
        bytes: *mut u8,
        bytes_len: usize,
        record: *mut [u32; RECORD_WORDS],
        team: u32,
        number: u32,
        new_size: u32,
    ) -> u32;
    pub fn counter_fill_file(
        image: *mut u8,
        image_len: usize,
        words: *mut u32,
        words_len: usize,
        bytes: *mut u8,
        bytes_len: usize,
        record: *mut [u32; RECORD_WORDS],
        team: u32,
        number: u32,
        clip: *const u8,
        clip_len: usize,
    ) -> u32;
    pub fn counter_rewrite(
        image: *mut u8,
        image_len: usize,
        words: *mut u32,
        words_len: usize,
        bytes: *mut u8,
        bytes_len: usize,
        record: *mut [u32; RECORD_WORDS],
        team: u32,
    ) -> u32;

    pub fn counter_move_copy(
        image: *mut u8,
        image_len: usize,
        words: *mut u32,
        words_len: usize,
        bytes: *mut u8,
        bytes_len: usize,
        record: *const [u32; RECORD_WORDS],
        team: u32,
        number: u32,
        new_offset: u32,
    ) -> u32;
    pub fn counter_resize_copy(
        image: *mut u8,
        image_len: usize,
        words: *mut u32,
        words_len: usize,
        bytes: *mut u8,
        bytes_len: usize,
        record: *const [u32; RECORD_WORDS],
        team: u32,
        number: u32,
        new_size: u32,
    ) -> u32;
    pub fn counter_move_table(
        image: *mut u8,
        image_len: usize,
        words: *mut u32,
        words_len: usize,
        bytes: *mut u8,
        bytes_len: usize,
        record: *mut [u32; RECORD_WORDS],
        team: u32,
        number: u32,
        new_offset: u32,
        span: *mut [u32; 2],
    ) -> u32;
    pub fn counter_resize_table(
        image: *mut u8,
        image_len: usize,
        words: *mut u32,
        words_len: usize,
        bytes: *mut u8,
        bytes_len: usize,
        record: *mut [u32; RECORD_WORDS],
        team: u32,
        number: u32,
        new_size: u32,
        span: *mut [u32; 2],
    ) -> u32;
    pub fn counter_zero(
        image: *mut u8,
        image_len: usize,
        words: *mut u32,
        words_len: usize,
        offset: u32,
        size: u32,
    ) -> u32;

    pub fn counter_sheet(
        image: *mut u8,
        image_len: usize,
        words: *mut u32,
        words_len: usize,
        bytes: *mut u8,
        bytes_len: usize,
        record: *mut [u32; RECORD_WORDS],
        team: u32,
        sheet: *const u8,
        sheet_len: usize,
        line: *mut [u32; 1],
    ) -> u32;

    pub fn counter_master(
        image: *mut u8,
        image_len: usize,
        words: *mut u32,
        words_len: usize,
        bytes: *mut u8,
        bytes_len: usize,
        game_code: *const [u8; 4],
        disc_end: u32,
        sizes: *const u32,
        sizes_len: usize,
        paths: *const u8,
        paths_len: usize,
    ) -> u32;

    pub fn counter_small_tables(
        entries: u32,
        list: *mut u8,
        list_len: usize,
        answer: *mut [u32; 1],
    ) -> u32;
}
