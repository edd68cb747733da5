//! The library's C calls, declared as in include/blocktree.h, each with a safe function that takes slices and returns the refusal (0 for none) and all figures.

/// The refusal of figures that `info` writes.
pub const FIGURES: usize = 23;

mod declared {
    extern "C" {
        pub fn bt_build(
            text: *const u8,
            text_len: u64,
            leaf: u32,
            arity: u32,
            levels: u32,
            counted: *const u8,
            counted_len: u64,
            out: *mut u8,
            out_len: u64,
            size: *mut u32,
        ) -> u32;
        pub fn bt_size_bound(n: u32, leaf: u32, arity: u32, levels: u32, counted: u32, size: *mut u64) -> u32;
        pub fn bt_check(tree: *const u8, tree_len: u64) -> u32;
        pub fn bt_byte(tree: *const u8, tree_len: u64, place: u32, value: *mut u32, entered: *mut u32) -> u32;
        pub fn bt_run_range(tree: *const u8, tree_len: u64, place: u32, offset: *mut u64, length: *mut u32) -> u32;
        pub fn bt_span(tree: *const u8, tree_len: u64, place: u32, length: u32, buffer: *mut u8, buffer_len: u64, entered: *mut u32) -> u32;
        pub fn bt_count(tree: *const u8, tree_len: u64, byte: u32, i: u32, count: *mut u64, entered: *mut u32) -> u32;
        pub fn bt_find(tree: *const u8, tree_len: u64, byte: u32, j: u32, place: *mut u32, entered: *mut u32) -> u32;
        pub fn bt_row(tree: *const u8, tree_len: u64, q: u32, buffer: *mut u8, buffer_len: u64, length: *mut u32) -> u32;
        pub fn bt_places(tree: *const u8, tree_len: u64, pattern: *const u8, pattern_len: u64, table: *mut u32, words: u64, number: *mut u32) -> u32;
        pub fn bt_next_match(tree: *const u8, tree_len: u64, ranges: *const u8, ranges_len: u64, mark: *mut u32, row: *mut u32) -> u32;
        pub fn bt_next_with_prefix(tree: *const u8, tree_len: u64, prefix: *const u8, prefix_len: u64, mark: *mut u32, row: *mut u32) -> u32;
        pub fn bt_to_columns(text: *const u8, text_len: u64, width: u32, out: *mut u8, out_len: u64) -> u32;
        pub fn bt_from_columns(text: *const u8, text_len: u64, width: u32, out: *mut u8, out_len: u64) -> u32;
        pub fn bt_row_by_columns(tree: *const u8, tree_len: u64, width: u32, a: u32, buffer: *mut u8, buffer_len: u64) -> u32;
        pub fn bt_digest(tree: *const u8, tree_len: u64, out: *mut u8, out_len: u64) -> u32;
        pub fn bt_digest_text(text: *const u8, text_len: u64, out: *mut u8, out_len: u64) -> u32;
        pub fn bt_guide_words(tree: *const u8, tree_len: u64, words: *mut u64) -> u32;
        pub fn bt_make_guide(tree: *const u8, tree_len: u64, table: *mut u8, table_len: u64, words: *mut u64) -> u32;
        pub fn bt_check_guide(tree: *const u8, tree_len: u64, guide: *const u8, guide_len: u64) -> u32;
        pub fn bt_find_guided(
            tree: *const u8,
            tree_len: u64,
            guide: *const u8,
            guide_len: u64,
            byte: u32,
            j: u32,
            place: *mut u32,
            entered: *mut u32,
            steps: *mut u32,
        ) -> u32;
        pub fn bt_row_guided(
            tree: *const u8,
            tree_len: u64,
            guide: *const u8,
            guide_len: u64,
            q: u32,
            buffer: *mut u8,
            buffer_len: u64,
            length: *mut u32,
        ) -> u32;
        pub fn bt_next_with_prefix_guided(
            tree: *const u8,
            tree_len: u64,
            guide: *const u8,
            guide_len: u64,
            prefix: *const u8,
            prefix_len: u64,
            mark: *mut u32,
            row: *mut u32,
        ) -> u32;
        pub fn bt_compare(one: *const u8, one_len: u64, other: *const u8, other_len: u64, order: *mut u32, shared: *mut u32, first: *mut u32) -> u32;
        pub fn bt_list(tree: *const u8, tree_len: u64, out: *mut u8, out_len: u64, length: *mut u32) -> u32;
        pub fn bt_build_scanned(
            text: *const u8,
            text_len: u64,
            leaf: u32,
            arity: u32,
            levels: u32,
            counted: *const u8,
            counted_len: u64,
            work: *mut u32,
            work_len: u64,
            out: *mut u8,
            out_len: u64,
            size: *mut u32,
            windows: *mut u32,
        ) -> u32;
        pub fn bt_scan_words(n: u32, leaf: u32) -> u64;
        pub fn bt_open_on(
            first: *const u8,
            first_len: u64,
            last: *const u8,
            last_len: u64,
            today: *const u8,
            today_len: u64,
            is_open: *mut u32,
        ) -> u32;
        pub fn bt_days_left(last: *const u8, last_len: u64, today: *const u8, today_len: u64, days: *mut i32) -> u32;
        pub fn bt_renew(day: *mut u8, day_len: u64) -> u32;
        pub fn bt_version() -> u32;
        pub fn bt_info(tree: *const u8, tree_len: u64, figures: *mut u64) -> u32;
        pub fn bt_row_count(tree: *const u8, tree_len: u64, rows: *mut u64) -> u32;
        pub fn bt_row_length(tree: *const u8, tree_len: u64, q: u32, length: *mut u32) -> u32;
        pub fn bt_places_words(tree: *const u8, tree_len: u64, length: u32, words: *mut u32) -> u32;
        pub fn bt_without_edges(tree: *const u8, tree_len: u64, out: *mut u8, out_len: u64, size: *mut u64) -> u32;
    }
}

#[cfg(test)]
thread_local! {
    /// The refusal of slices that this thread has passed to the library, one or more for each call: tests bound the number of calls by it.
    pub(crate) static LENT: std::cell::Cell<u64> = const { std::cell::Cell::new(0) };
}

/// The length of a slice: 64 bits on every processor, as in the contracts.
fn len<T>(lent: &[T]) -> u64 {
    #[cfg(test)]
    LENT.set(LENT.get() + 1);
    lent.len() as u64
}

// Safety of all calls below: a slice's pointer is non-null and good for its length, a `&mut` is aligned and overlaps no other argument, and the
// library accesses only its arguments, for any bytes (proved).

/// The refusal and the tree's size.
pub fn build(text: &[u8], leaf: u32, arity: u32, levels: u32, counted: &[u8], out: &mut [u8]) -> (u32, u32) {
    let mut size = 0;
    let number = unsafe {
        declared::bt_build(text.as_ptr(), len(text), leaf, arity, levels, counted.as_ptr(), len(counted), out.as_mut_ptr(), len(out), &mut size)
    };
    (number, size)
}

/// The refusal, and the size bound.
pub fn size_bound(n: u32, leaf: u32, arity: u32, levels: u32, counted: u32) -> (u32, u64) {
    let mut size = 0;
    let number = unsafe { declared::bt_size_bound(n, leaf, arity, levels, counted, &mut size) };
    (number, size)
}

/// The refusal.
pub fn check(tree: &[u8]) -> u32 {
    unsafe { declared::bt_check(tree.as_ptr(), len(tree)) }
}

/// The refusal, the byte and the blocks entered.
pub fn byte(tree: &[u8], place: u32) -> (u32, u32, u32) {
    let (mut value, mut entered) = (0, 0);
    let number = unsafe { declared::bt_byte(tree.as_ptr(), len(tree), place, &mut value, &mut entered) };
    (number, value, entered)
}

/// The refusal, where the part starts in the tree's bytes, and its length.
pub fn run_range(tree: &[u8], place: u32) -> (u32, u64, u32) {
    let (mut offset, mut length) = (0, 0);
    let number = unsafe { declared::bt_run_range(tree.as_ptr(), len(tree), place, &mut offset, &mut length) };
    (number, offset, length)
}

/// The refusal and the blocks entered.
pub fn span(tree: &[u8], place: u32, length: u32, buffer: &mut [u8]) -> (u32, u32) {
    let mut entered = 0;
    let number = unsafe { declared::bt_span(tree.as_ptr(), len(tree), place, length, buffer.as_mut_ptr(), len(buffer), &mut entered) };
    (number, entered)
}

/// The refusal, the count and the blocks entered.
pub fn count(tree: &[u8], byte: u32, i: u32) -> (u32, u64, u32) {
    let (mut count, mut entered) = (0, 0);
    let number = unsafe { declared::bt_count(tree.as_ptr(), len(tree), byte, i, &mut count, &mut entered) };
    (number, count, entered)
}

/// The refusal, the place and the blocks entered.
pub fn find(tree: &[u8], byte: u32, j: u32) -> (u32, u32, u32) {
    let (mut place, mut entered) = (0, 0);
    let number = unsafe { declared::bt_find(tree.as_ptr(), len(tree), byte, j, &mut place, &mut entered) };
    (number, place, entered)
}

/// The refusal and the row's length.
pub fn row(tree: &[u8], q: u32, buffer: &mut [u8]) -> (u32, u32) {
    let mut length = 0;
    let number = unsafe { declared::bt_row(tree.as_ptr(), len(tree), q, buffer.as_mut_ptr(), len(buffer), &mut length) };
    (number, length)
}

/// The refusal, and the number of places.
pub fn places(tree: &[u8], pattern: &[u8], table: &mut [u32]) -> (u32, u32) {
    let mut places = 0;
    let number =
        unsafe { declared::bt_places(tree.as_ptr(), len(tree), pattern.as_ptr(), len(pattern), table.as_mut_ptr(), len(table), &mut places) };
    (number, places)
}

/// The refusal and the next row that matches, 0 for none; the mark is moved.
pub fn next_match(tree: &[u8], ranges: &[u8], mark: &mut u32) -> (u32, u32) {
    let mut row = 0;
    let number = unsafe { declared::bt_next_match(tree.as_ptr(), len(tree), ranges.as_ptr(), len(ranges), mark, &mut row) };
    (number, row)
}

/// The refusal, and the next row that starts with the prefix, 0 for none; the mark is moved.
pub fn next_with_prefix(tree: &[u8], prefix: &[u8], mark: &mut u32) -> (u32, u32) {
    let mut row = 0;
    let number = unsafe { declared::bt_next_with_prefix(tree.as_ptr(), len(tree), prefix.as_ptr(), len(prefix), mark, &mut row) };
    (number, row)
}

/// The refusal; the text rearranged by columns.
pub fn to_columns(text: &[u8], width: u32, out: &mut [u8]) -> u32 {
    unsafe { declared::bt_to_columns(text.as_ptr(), len(text), width, out.as_mut_ptr(), len(out)) }
}

/// The refusal; the text by columns rearranged back to rows.
pub fn from_columns(text: &[u8], width: u32, out: &mut [u8]) -> u32 {
    unsafe { declared::bt_from_columns(text.as_ptr(), len(text), width, out.as_mut_ptr(), len(out)) }
}

/// The refusal; row `a` read by columns.
pub fn row_by_columns(tree: &[u8], width: u32, a: u32, buffer: &mut [u8]) -> u32 {
    unsafe { declared::bt_row_by_columns(tree.as_ptr(), len(tree), width, a, buffer.as_mut_ptr(), len(buffer)) }
}

/// The refusal; the SHA-256 of the tree's text is in the first 32 bytes.
pub fn digest(tree: &[u8], out: &mut [u8]) -> u32 {
    unsafe { declared::bt_digest(tree.as_ptr(), len(tree), out.as_mut_ptr(), len(out)) }
}

/// The refusal; the SHA-256 of the text is in the first 32 bytes.
pub fn digest_text(text: &[u8], out: &mut [u8]) -> u32 {
    unsafe { declared::bt_digest_text(text.as_ptr(), len(text), out.as_mut_ptr(), len(out)) }
}

/// The refusal and the words of a guide.
pub fn guide_words(tree: &[u8]) -> (u32, u64) {
    let mut words = 0;
    let number = unsafe { declared::bt_guide_words(tree.as_ptr(), len(tree), &mut words) };
    (number, words)
}

/// The refusal and the words of the guide that is written.
pub fn make_guide(tree: &[u8], table: &mut [u8]) -> (u32, u64) {
    let mut words = 0;
    let number = unsafe { declared::bt_make_guide(tree.as_ptr(), len(tree), table.as_mut_ptr(), len(table), &mut words) };
    (number, words)
}

/// The refusal.
pub fn check_guide(tree: &[u8], guide: &[u8]) -> u32 {
    unsafe { declared::bt_check_guide(tree.as_ptr(), len(tree), guide.as_ptr(), len(guide)) }
}

/// The refusal, the place, the length of its path and the steps on level 0.
pub fn find_guided(tree: &[u8], guide: &[u8], byte: u32, j: u32) -> (u32, u32, u32, u32) {
    let (mut place, mut entered, mut steps) = (0, 0, 0);
    let number =
        unsafe { declared::bt_find_guided(tree.as_ptr(), len(tree), guide.as_ptr(), len(guide), byte, j, &mut place, &mut entered, &mut steps) };
    (number, place, entered, steps)
}

/// The refusal and the row's length.
pub fn row_guided(tree: &[u8], guide: &[u8], q: u32, buffer: &mut [u8]) -> (u32, u32) {
    let mut length = 0;
    let number =
        unsafe { declared::bt_row_guided(tree.as_ptr(), len(tree), guide.as_ptr(), len(guide), q, buffer.as_mut_ptr(), len(buffer), &mut length) };
    (number, length)
}

/// As `next_with_prefix`, with a guide.
pub fn next_with_prefix_guided(tree: &[u8], guide: &[u8], prefix: &[u8], mark: &mut u32) -> (u32, u32) {
    let mut row = 0;
    let (tree, guide, prefix) = ((tree.as_ptr(), len(tree)), (guide.as_ptr(), len(guide)), (prefix.as_ptr(), len(prefix)));
    let number = unsafe { declared::bt_next_with_prefix_guided(tree.0, tree.1, guide.0, guide.1, prefix.0, prefix.1, mark, &mut row) };
    (number, row)
}

/// The refusal, the order of the first text (1 before, 2 same, 3 after), the length of the longest common prefix, and which tree comes first (1 or 2).
pub fn compare(one: &[u8], other: &[u8]) -> (u32, u32, u32, u32) {
    let (mut order, mut shared, mut first) = (0, 0, 0);
    let number = unsafe { declared::bt_compare(one.as_ptr(), len(one), other.as_ptr(), len(other), &mut order, &mut shared, &mut first) };
    (number, order, shared, first)
}

/// The refusal and the lines' length.
pub fn list(tree: &[u8], out: &mut [u8]) -> (u32, u32) {
    let mut length = 0;
    let number = unsafe { declared::bt_list(tree.as_ptr(), len(tree), out.as_mut_ptr(), len(out), &mut length) };
    (number, length)
}

/// The refusal, the tree's size and the windows looked up.
pub fn build_scanned(text: &[u8], leaf: u32, arity: u32, levels: u32, counted: &[u8], work: &mut [u32], out: &mut [u8]) -> (u32, u32, u32) {
    let (mut size, mut windows) = (0, 0);
    let number = unsafe {
        declared::bt_build_scanned(
            text.as_ptr(),
            len(text),
            leaf,
            arity,
            levels,
            counted.as_ptr(),
            len(counted),
            work.as_mut_ptr(),
            len(work),
            out.as_mut_ptr(),
            len(out),
            &mut size,
            &mut windows,
        )
    };
    (number, size, windows)
}

/// The words of the table that `build_scanned` needs.
pub fn scan_words(n: u32, leaf: u32) -> u64 {
    unsafe { declared::bt_scan_words(n, leaf) }
}

/// The refusal, and 1 for open, else 0.
pub fn open_on(first: &[u8], last: &[u8], today: &[u8]) -> (u32, u32) {
    let mut open = 0;
    let number = unsafe { declared::bt_open_on(first.as_ptr(), len(first), last.as_ptr(), len(last), today.as_ptr(), len(today), &mut open) };
    (number, open)
}

/// The refusal and the days left.
pub fn days_left(last: &[u8], today: &[u8]) -> (u32, i32) {
    let mut days = 0;
    let number = unsafe { declared::bt_days_left(last.as_ptr(), len(last), today.as_ptr(), len(today), &mut days) };
    (number, days)
}

/// The refusal; the day is moved.
pub fn renew(day: &mut [u8]) -> u32 {
    unsafe { declared::bt_renew(day.as_mut_ptr(), len(day)) }
}

/// The version as one number.
pub fn version() -> u32 {
    unsafe { declared::bt_version() }
}

/// The refusal; the figures are written, in the order of the header's enum bt_figure.
pub fn info(tree: &[u8], figures: &mut [u64; FIGURES]) -> u32 {
    unsafe { declared::bt_info(tree.as_ptr(), len(tree), figures.as_mut_ptr()) }
}

/// The refusal, and the number of rows.
pub fn row_count(tree: &[u8]) -> (u32, u64) {
    let mut rows = 0;
    let number = unsafe { declared::bt_row_count(tree.as_ptr(), len(tree), &mut rows) };
    (number, rows)
}

/// The refusal and the row's length.
pub fn row_length(tree: &[u8], q: u32) -> (u32, u32) {
    let mut length = 0;
    let number = unsafe { declared::bt_row_length(tree.as_ptr(), len(tree), q, &mut length) };
    (number, length)
}

/// The refusal, and the words that all places of any pattern of that length fit.
pub fn places_words(tree: &[u8], length: u32) -> (u32, u32) {
    let mut words = 0;
    let number = unsafe { declared::bt_places_words(tree.as_ptr(), len(tree), length, &mut words) };
    (number, words)
}

/// The refusal, and the size of the tree in layout 1 that was written.
pub fn without_edges(tree: &[u8], out: &mut [u8]) -> (u32, u64) {
    let mut size = 0;
    let number = unsafe { declared::bt_without_edges(tree.as_ptr(), len(tree), out.as_mut_ptr(), len(out), &mut size) };
    (number, size)
}
