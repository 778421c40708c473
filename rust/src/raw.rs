//! The archive's functions (c/ferrysprig.h) as safe ones. All unsafe code of the crate stands here; compare/ takes this file, too.

use crate::layout::{
    answer_at, burst_answer_at, header_answer_at, index_answer_at, level_answer_at, pack_answer_at,
    profile_answer_at, salvage_answer_at, AhtAnswer, Answer, BurstAnswer, ChangeList, HeaderAnswer,
    IndexAnswer, LevelAnswer, PackAnswer, ProfileAnswer, SalvageAnswer, AHT_ANSWER_NUMBERS,
    ANSWER_NUMBERS, BURST_ANSWER_NUMBERS, CHANGE_NUMBERS, ENTRY_NUMBERS, HEADER_ANSWER_NUMBERS,
    INDEX_ANSWER_NUMBERS, INDEX_ENTRY_NUMBERS, LEVEL_ANSWER_NUMBERS, PACK_ANSWER_NUMBERS,
    PROFILE_ANSWER_NUMBERS, ROW_NUMBERS, SALVAGE_ANSWER_NUMBERS,
};

extern "C" {
    fn ferrysprig_parse(
        capture: *const u8,
        capture_len: usize,
        place: usize,
        rows: *mut i32,
        rows_len: usize,
        answer: *mut Answer,
    );
    fn ferrysprig_header(
        capture: *const u8,
        capture_len: usize,
        place: usize,
        rows: *mut i32,
        rows_len: usize,
        answer: *mut HeaderAnswer,
    );
    fn ferrysprig_blocks(
        capture: *const u8,
        capture_len: usize,
        place: usize,
        rows: *mut i32,
        rows_len: usize,
        header: *const HeaderAnswer,
        answer: *mut Answer,
    );
    fn ferrysprig_profile(
        capture: *const u8,
        capture_len: usize,
        place: usize,
        rows: *mut i32,
        rows_len: usize,
        answer: *mut ProfileAnswer,
    );
    fn ferrysprig_range_eq(
        x: *const u8,
        x_len: usize,
        a: usize,
        y: *const u8,
        y_len: usize,
        b: usize,
        n: usize,
    ) -> bool;
    fn ferrysprig_burst_write(
        capture: *const u8,
        capture_len: usize,
        place: usize,
        rows: *mut i32,
        rows_len: usize,
        out: *mut u8,
        out_len: usize,
        answer: *mut BurstAnswer,
    );
    fn ferrysprig_burst_read(
        burst: *const u8,
        burst_len: usize,
        rows: *mut i32,
        rows_len: usize,
        out: *mut u8,
        out_len: usize,
        answer: *mut BurstAnswer,
    );
    fn ferrysprig_editable(name: usize) -> bool;
    fn ferrysprig_set(
        capture: *mut u8,
        capture_len: usize,
        place: usize,
        position: usize,
        width: usize,
        value: usize,
    ) -> u8;
    fn ferrysprig_salvage(
        capture: *const u8,
        capture_len: usize,
        rows: *mut i32,
        rows_len: usize,
        list: *mut usize,
        list_len: usize,
        out: *mut u8,
        out_len: usize,
        answer: *mut SalvageAnswer,
    );
    fn ferrysprig_index(
        capture: *const u8,
        capture_len: usize,
        rows: *mut i32,
        rows_len: usize,
        index: *mut usize,
        index_len: usize,
        entries: usize,
        answer: *mut IndexAnswer,
    );
    fn ferrysprig_aht(
        data: *const u8,
        data_len: usize,
        at: usize,
        end: usize,
        hebap: *const u8,
        hebap_len: usize,
        first: usize,
        past: usize,
        answer: *mut AhtAnswer,
    );
    fn ferrysprig_pack(
        listing: *const u8,
        listing_len: usize,
        out: *mut u8,
        out_len: usize,
        answer: *mut PackAnswer,
    );
    fn ferrysprig_unpack(
        packed: *const u8,
        packed_len: usize,
        out: *mut u8,
        out_len: usize,
        answer: *mut PackAnswer,
    );
    fn ferrysprig_correct(
        capture: *mut u8,
        capture_len: usize,
        place: usize,
        programme: usize,
        level: usize,
        rows: *mut i32,
        rows_len: usize,
        changes: *mut ChangeList,
        answer: *mut LevelAnswer,
    );
}

/// Parses the frame at byte `place` of `capture` into the lent `rows`; the answer, and the rows that it says were written.
pub fn parse<'a>(capture: &[u8], place: usize, rows: &'a mut [i32]) -> (Answer, &'a [i32]) {
    let mut answer = [0; ANSWER_NUMBERS];
    // SAFETY: each pointer and length is that of a slice or an array that lives through the call; `rows` and `answer` are borrowed mutably,
    // so nothing else refers to them. The function asks nothing more of its caller, writes only there, and keeps no pointer.
    unsafe {
        ferrysprig_parse(
            capture.as_ptr(),
            capture.len(),
            place,
            rows.as_mut_ptr(),
            rows.len(),
            &mut answer,
        );
    }
    (answer, rows_written(answer[answer_at::ROWS], rows))
}

/// Reads the header of the frame at byte `place` of `capture` into the lent `rows`; the answer, and the rows that it says were written.
pub fn header<'a>(capture: &[u8], place: usize, rows: &'a mut [i32]) -> (HeaderAnswer, &'a [i32]) {
    let mut answer = [0; HEADER_ANSWER_NUMBERS];
    // SAFETY: as in `parse`.
    unsafe {
        ferrysprig_header(
            capture.as_ptr(),
            capture.len(),
            place,
            rows.as_mut_ptr(),
            rows.len(),
            &mut answer,
        );
    }
    let written = rows_written(answer[header_answer_at::ROWS], rows);
    (answer, written)
}

/// Parses as `parse` does, if `header` is what `header` answers to the same call; else the refusal is 24. The answer, and the rows that it
/// says were written.
pub fn blocks<'a>(
    capture: &[u8],
    place: usize,
    rows: &'a mut [i32],
    header: &HeaderAnswer,
) -> (Answer, &'a [i32]) {
    let mut answer = [0; ANSWER_NUMBERS];
    // SAFETY: as in `parse`; `header` is an array that lives through the call, and is not written to.
    unsafe {
        ferrysprig_blocks(
            capture.as_ptr(),
            capture.len(),
            place,
            rows.as_mut_ptr(),
            rows.len(),
            header,
            &mut answer,
        );
    }
    (answer, rows_written(answer[answer_at::ROWS], rows))
}

/// Parses as `parse` does, and holds the frame against the profile; the answer, and the rows that it says were written.
pub fn profile<'a>(
    capture: &[u8],
    place: usize,
    rows: &'a mut [i32],
) -> (ProfileAnswer, &'a [i32]) {
    let mut answer = [0; PROFILE_ANSWER_NUMBERS];
    // SAFETY: as in `parse`.
    unsafe {
        ferrysprig_profile(
            capture.as_ptr(),
            capture.len(),
            place,
            rows.as_mut_ptr(),
            rows.len(),
            &mut answer,
        );
    }
    (answer, rows_written(answer[profile_answer_at::ROWS], rows))
}

/// The rows that an answer says were written. A count is a length only if it fits the room. It always does, which is proved; that the
/// archive is the proved one is not.
fn rows_written(count: i32, rows: &[i32]) -> &[i32] {
    usize::try_from(count)
        .ok()
        .and_then(|count| rows.get(..count.checked_mul(ROW_NUMBERS)?))
        .expect("libferrysprig.a wrote more rows than there is room for")
}

pub fn range_eq(x: &[u8], a: usize, y: &[u8], b: usize, n: usize) -> bool {
    // SAFETY: each pointer and length is that of a slice that lives through the call. The function asks nothing more of its caller, writes
    // nowhere, and keeps no pointer; its answer is C's bool, which is Rust's.
    unsafe { ferrysprig_range_eq(x.as_ptr(), x.len(), a, y.as_ptr(), y.len(), b, n) }
}

/// Whether the values of a name, by its number, may be edited.
pub fn editable(name: usize) -> bool {
    // SAFETY: the function takes a number and asks nothing of its caller; its answer is C's bool, which is Rust's.
    unsafe { ferrysprig_editable(name) }
}

/// Writes a value of `width` bits at bit `position` of what begins at byte `place` of `capture`; the refusal, 0 for none.
pub fn set(capture: &mut [u8], place: usize, position: usize, width: usize, value: usize) -> u8 {
    // SAFETY: pointer and length are those of a slice that lives through the call and is borrowed mutably, so nothing else refers to it.
    // The function asks nothing more of its caller, writes only there, and keeps no pointer.
    unsafe {
        ferrysprig_set(
            capture.as_mut_ptr(),
            capture.len(),
            place,
            position,
            width,
            value,
        )
    }
}

/// Walks over the AHT section at bit `at` of `data`, up to bit `end`, for the bins from `first` on and before `past`.
pub fn aht(
    data: &[u8],
    at: usize,
    end: usize,
    hebap: &[u8],
    first: usize,
    past: usize,
) -> AhtAnswer {
    let mut answer = [0; AHT_ANSWER_NUMBERS];
    // SAFETY: each pointer and length is that of a slice or an array that lives through the call; `answer` is borrowed mutably, so nothing
    // else refers to it. The function asks nothing more of its caller, writes only there, and keeps no pointer.
    unsafe {
        ferrysprig_aht(
            data.as_ptr(),
            data.len(),
            at,
            end,
            hebap.as_ptr(),
            hebap.len(),
            first,
            past,
            &mut answer,
        );
    }
    answer
}

/// Writes the frame at byte `place` of `capture` to the front of `out` as one burst; the answer, and the bytes that it says were written.
pub fn burst_write<'a>(
    capture: &[u8],
    place: usize,
    rows: &mut [i32],
    out: &'a mut [u8],
) -> (BurstAnswer, &'a [u8]) {
    let mut answer = [0; BURST_ANSWER_NUMBERS];
    // SAFETY: each pointer and length is that of a slice or an array that lives through the call; `rows`, `out` and `answer` are borrowed
    // mutably, so nothing else refers to them. The function asks nothing more of its caller, writes only there, and keeps no pointer.
    unsafe {
        ferrysprig_burst_write(
            capture.as_ptr(),
            capture.len(),
            place,
            rows.as_mut_ptr(),
            rows.len(),
            out.as_mut_ptr(),
            out.len(),
            &mut answer,
        );
    }
    (answer, written(&answer, out))
}

/// Writes the frame of `burst` to the front of `out`; the answer, and the bytes that it says were written.
pub fn burst_read<'a>(
    burst: &[u8],
    rows: &mut [i32],
    out: &'a mut [u8],
) -> (BurstAnswer, &'a [u8]) {
    let mut answer = [0; BURST_ANSWER_NUMBERS];
    // SAFETY: as in `burst_write`.
    unsafe {
        ferrysprig_burst_read(
            burst.as_ptr(),
            burst.len(),
            rows.as_mut_ptr(),
            rows.len(),
            out.as_mut_ptr(),
            out.len(),
            &mut answer,
        );
    }
    (answer, written(&answer, out))
}

/// What an answer about a burst says was written. (That the count fits is proved, as in `parse`.)
fn written<'a>(answer: &BurstAnswer, out: &'a [u8]) -> &'a [u8] {
    usize::try_from(answer[burst_answer_at::WRITTEN])
        .ok()
        .and_then(|count| out.get(..count))
        .expect("libferrysprig.a wrote more bytes than there is room for")
}

/// Goes through `capture`: its frames to the front of `out`, frames and gaps to the front of `list`; the answer, and the numbers and bytes
/// that it says were written.
pub fn salvage<'a>(
    capture: &[u8],
    rows: &mut [i32],
    list: &'a mut [usize],
    out: &'a mut [u8],
) -> (SalvageAnswer, &'a [usize], &'a [u8]) {
    let mut answer = [0; SALVAGE_ANSWER_NUMBERS];
    // SAFETY: as in `burst_write`, with `list` as `out`.
    unsafe {
        ferrysprig_salvage(
            capture.as_ptr(),
            capture.len(),
            rows.as_mut_ptr(),
            rows.len(),
            list.as_mut_ptr(),
            list.len(),
            out.as_mut_ptr(),
            out.len(),
            &mut answer,
        );
    }
    // (That the counts fit is proved, as in `parse`.)
    let listed = answer[salvage_answer_at::ENTRIES]
        .checked_mul(ENTRY_NUMBERS)
        .and_then(|numbers| list.get(..numbers))
        .expect("libferrysprig.a listed more entries than there is room for");
    let written = out
        .get(..answer[salvage_answer_at::WRITTEN])
        .expect("libferrysprig.a wrote more bytes than there is room for");
    (answer, listed, written)
}

/// Writes the packed form of the text `listing` to the front of `out`; the answer, and the bytes that it says were written.
pub fn pack<'a>(listing: &[u8], out: &'a mut [u8]) -> (PackAnswer, &'a [u8]) {
    let mut answer = [0; PACK_ANSWER_NUMBERS];
    // SAFETY: each pointer and length is that of a slice or an array that lives through the call; `out` and `answer` are borrowed mutably,
    // so nothing else refers to them. The function asks nothing more of its caller, writes only there, and keeps no pointer.
    unsafe {
        ferrysprig_pack(
            listing.as_ptr(),
            listing.len(),
            out.as_mut_ptr(),
            out.len(),
            &mut answer,
        );
    }
    (answer, packed_written(&answer, out))
}

/// Writes the text of the listing that `packed` is to the front of `out`; the answer, and the bytes that it says were written.
pub fn unpack<'a>(packed: &[u8], out: &'a mut [u8]) -> (PackAnswer, &'a [u8]) {
    let mut answer = [0; PACK_ANSWER_NUMBERS];
    // SAFETY: as in `pack`.
    unsafe {
        ferrysprig_unpack(
            packed.as_ptr(),
            packed.len(),
            out.as_mut_ptr(),
            out.len(),
            &mut answer,
        );
    }
    (answer, packed_written(&answer, out))
}

/// What an answer about a packed listing says was written. (That the count fits is proved, as in `parse`.)
fn packed_written<'a>(answer: &PackAnswer, out: &'a [u8]) -> &'a [u8] {
    out.get(..answer[pack_answer_at::WRITTEN])
        .expect("libferrysprig.a wrote more bytes than there is room for")
}

/// Writes the level of a programme, counted from 1, into the frame at byte `place` of `capture`, and mends its checksums; the answer, and
/// the numbers of the changes that it says were listed.
pub fn correct<'a>(
    capture: &mut [u8],
    place: usize,
    programme: usize,
    level: usize,
    rows: &mut [i32],
    changes: &'a mut ChangeList,
) -> (LevelAnswer, &'a [i32]) {
    let mut answer = [0; LEVEL_ANSWER_NUMBERS];
    // SAFETY: each pointer and length is that of a slice or an array that lives through the call; `capture`, `rows`, `changes` and `answer`
    // are borrowed mutably, so nothing else refers to them. The function asks nothing more of its caller, writes only there, and keeps no
    // pointer.
    unsafe {
        ferrysprig_correct(
            capture.as_mut_ptr(),
            capture.len(),
            place,
            programme,
            level,
            rows.as_mut_ptr(),
            rows.len(),
            changes,
            &mut answer,
        );
    }
    // (That the count fits is proved, as in `parse`.)
    let listed = usize::try_from(answer[level_answer_at::CHANGES])
        .ok()
        .and_then(|count| changes.get(..count.checked_mul(CHANGE_NUMBERS)?))
        .expect("libferrysprig.a listed more changes than there is room for");
    (answer, listed)
}

/// Makes an index of `capture`, or extends the one whose `entries` stand at the front of `index`.
pub fn index(capture: &[u8], rows: &mut [i32], index: &mut [usize], entries: usize) -> IndexAnswer {
    let mut answer = [0; INDEX_ANSWER_NUMBERS];
    // SAFETY: as in `burst_write`, with `index` as `out`.
    unsafe {
        ferrysprig_index(
            capture.as_ptr(),
            capture.len(),
            rows.as_mut_ptr(),
            rows.len(),
            index.as_mut_ptr(),
            index.len(),
            entries,
            &mut answer,
        );
    }
    // (That they fit is proved, as in `parse`. On a refusal they are those given, which may be any number.)
    assert!(
        answer[index_answer_at::REFUSAL] != 0
            || answer[index_answer_at::ENTRIES] <= index.len() / INDEX_ENTRY_NUMBERS,
        "libferrysprig.a entered more frames than there is room for"
    );
    answer
}
