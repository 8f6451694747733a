//! The C interface, as `bindings/include/stumpgarret.h` describes it.

/// The numbers that describe a literal, the words of a record, the numbers of a row and of an answer.
pub(crate) const LITERAL: usize = 6;
pub(crate) const RECORD: usize = 8;
pub(crate) const ROW: usize = 10;
pub(crate) const ANSWER: usize = 12;

extern "C" {
    fn stumpgarret_read(
        script: *const u8,
        script_length: usize,
        literals: *const u32,
        literals_length: usize,
        words: *mut u32,
        words_length: usize,
        text: *mut u8,
        text_length: usize,
        answer: *mut u32,
    );
    fn stumpgarret_signs(
        script: *const u8,
        script_length: usize,
        literals: *const u32,
        literals_length: usize,
        rows: *mut u32,
        rows_length: usize,
        answer: *mut u32,
    );
    fn stumpgarret_literals(
        script: *const u8,
        script_length: usize,
        offset: u32,
        numbers: *mut u32,
        numbers_length: usize,
        answer: *mut u32,
    );
    fn stumpgarret_cut(
        script: *const u8,
        script_length: usize,
        numbers: *mut u32,
        numbers_length: usize,
        answer: *mut u32,
    );
    fn stumpgarret_fields(
        script: *const u8,
        script_length: usize,
        rows: *mut u32,
        rows_length: usize,
        answer: *mut u32,
    );
    fn stumpgarret_names_build(
        file: *const u8,
        file_length: usize,
        index: *mut u32,
        index_length: usize,
        answer: *mut u32,
    );
    fn stumpgarret_names_check(
        file: *const u8,
        file_length: usize,
        index: *const u32,
        index_length: usize,
        answer: *mut u32,
    );
    fn stumpgarret_read_searched(
        script: *const u8,
        script_length: usize,
        literals: *const u32,
        literals_length: usize,
        file: *const u8,
        file_length: usize,
        index: *const u32,
        index_length: usize,
        words: *mut u32,
        words_length: usize,
        text: *mut u8,
        text_length: usize,
        answer: *mut u32,
    );
    fn stumpgarret_fields_named(
        script: *const u8,
        script_length: usize,
        file: *const u8,
        file_length: usize,
        index: *const u32,
        index_length: usize,
        rows: *mut u32,
        rows_length: usize,
        answer: *mut u32,
    );
    fn stumpgarret_write(
        words: *const u32,
        words_length: usize,
        text: *const u8,
        text_length: usize,
        reading: *const u32,
        body: *mut u8,
        body_length: usize,
        answer: *mut u32,
    );
    fn stumpgarret_cuts_check(
        body: *const u8,
        body_length: usize,
        limit: u32,
        offsets: *const u32,
        offsets_length: usize,
        answer: *mut u32,
    );
    fn stumpgarret_cuts_plan(
        body: *const u8,
        body_length: usize,
        limit: u32,
        offsets: *mut u32,
        offsets_length: usize,
        answer: *mut u32,
    );
    fn stumpgarret_spec(spec: *const u8, spec_length: usize, answer: *mut u32);
    fn stumpgarret_replay(
        script: *const u8,
        script_length: usize,
        literals: *const u32,
        literals_length: usize,
        trace: *const u8,
        trace_length: usize,
        words: *mut u32,
        words_length: usize,
        text: *mut u8,
        text_length: usize,
        output: *mut u8,
        output_length: usize,
        answer: *mut u32,
    );
    fn stumpgarret_compare(
        words: *const u32,
        words_length: usize,
        text: *const u8,
        text_length: usize,
        reading: *const u32,
        other_words: *const u32,
        other_words_length: usize,
        other_text: *const u8,
        other_text_length: usize,
        other_reading: *const u32,
        list: *mut u32,
        list_length: usize,
        answer: *mut u32,
    );
}

pub(crate) fn read(
    script: &[u8],
    literals: &[u32],
    words: &mut [u32],
    text: &mut [u8],
) -> [u32; ANSWER] {
    let mut answer = [0; ANSWER];
    // SAFETY: each pointer is a slice's own, with its length, so it is valid, aligned and not null.
    // What is written to is borrowed mutably, so it overlaps nothing else.
    unsafe {
        stumpgarret_read(
            script.as_ptr(),
            script.len(),
            literals.as_ptr(),
            literals.len(),
            words.as_mut_ptr(),
            words.len(),
            text.as_mut_ptr(),
            text.len(),
            answer.as_mut_ptr(),
        );
    }
    answer
}

pub(crate) fn signs(script: &[u8], literals: &[u32], rows: &mut [u32]) -> [u32; ANSWER] {
    let mut answer = [0; ANSWER];
    // SAFETY: as above.
    unsafe {
        stumpgarret_signs(
            script.as_ptr(),
            script.len(),
            literals.as_ptr(),
            literals.len(),
            rows.as_mut_ptr(),
            rows.len(),
            answer.as_mut_ptr(),
        );
    }
    answer
}

pub(crate) fn literals(script: &[u8], offset: u32, numbers: &mut [u32]) -> [u32; ANSWER] {
    let mut answer = [0; ANSWER];
    // SAFETY: as above.
    unsafe {
        stumpgarret_literals(
            script.as_ptr(),
            script.len(),
            offset,
            numbers.as_mut_ptr(),
            numbers.len(),
            answer.as_mut_ptr(),
        );
    }
    answer
}

pub(crate) fn cut(script: &[u8], numbers: &mut [u32]) -> [u32; ANSWER] {
    let mut answer = [0; ANSWER];
    // SAFETY: as above.
    unsafe {
        stumpgarret_cut(
            script.as_ptr(),
            script.len(),
            numbers.as_mut_ptr(),
            numbers.len(),
            answer.as_mut_ptr(),
        );
    }
    answer
}

pub(crate) fn fields(script: &[u8], rows: &mut [u32]) -> [u32; ANSWER] {
    let mut answer = [0; ANSWER];
    // SAFETY: as above.
    unsafe {
        stumpgarret_fields(
            script.as_ptr(),
            script.len(),
            rows.as_mut_ptr(),
            rows.len(),
            answer.as_mut_ptr(),
        );
    }
    answer
}

pub(crate) fn names_build(file: &[u8], index: &mut [u32]) -> [u32; ANSWER] {
    let mut answer = [0; ANSWER];
    // SAFETY: as above.
    unsafe {
        stumpgarret_names_build(
            file.as_ptr(),
            file.len(),
            index.as_mut_ptr(),
            index.len(),
            answer.as_mut_ptr(),
        );
    }
    answer
}

pub(crate) fn names_check(file: &[u8], index: &[u32]) -> [u32; ANSWER] {
    let mut answer = [0; ANSWER];
    // SAFETY: as above.
    unsafe {
        stumpgarret_names_check(
            file.as_ptr(),
            file.len(),
            index.as_ptr(),
            index.len(),
            answer.as_mut_ptr(),
        );
    }
    answer
}

pub(crate) fn read_searched(
    script: &[u8],
    literals: &[u32],
    file: &[u8],
    index: &[u32],
    words: &mut [u32],
    text: &mut [u8],
) -> [u32; ANSWER] {
    let mut answer = [0; ANSWER];
    // SAFETY: as above.
    unsafe {
        stumpgarret_read_searched(
            script.as_ptr(),
            script.len(),
            literals.as_ptr(),
            literals.len(),
            file.as_ptr(),
            file.len(),
            index.as_ptr(),
            index.len(),
            words.as_mut_ptr(),
            words.len(),
            text.as_mut_ptr(),
            text.len(),
            answer.as_mut_ptr(),
        );
    }
    answer
}

pub(crate) fn fields_named(
    script: &[u8],
    file: &[u8],
    index: &[u32],
    rows: &mut [u32],
) -> [u32; ANSWER] {
    let mut answer = [0; ANSWER];
    // SAFETY: as above.
    unsafe {
        stumpgarret_fields_named(
            script.as_ptr(),
            script.len(),
            file.as_ptr(),
            file.len(),
            index.as_ptr(),
            index.len(),
            rows.as_mut_ptr(),
            rows.len(),
            answer.as_mut_ptr(),
        );
    }
    answer
}

pub(crate) fn spec(spec: &[u8]) -> [u32; ANSWER] {
    let mut answer = [0; ANSWER];
    // SAFETY: as above.
    unsafe {
        stumpgarret_spec(spec.as_ptr(), spec.len(), answer.as_mut_ptr());
    }
    answer
}

pub(crate) fn replay(
    script: &[u8],
    literals: &[u32],
    trace: &[u8],
    words: &mut [u32],
    text: &mut [u8],
    output: &mut [u8],
) -> [u32; ANSWER] {
    let mut answer = [0; ANSWER];
    // SAFETY: as above.
    unsafe {
        stumpgarret_replay(
            script.as_ptr(),
            script.len(),
            literals.as_ptr(),
            literals.len(),
            trace.as_ptr(),
            trace.len(),
            words.as_mut_ptr(),
            words.len(),
            text.as_mut_ptr(),
            text.len(),
            output.as_mut_ptr(),
            output.len(),
            answer.as_mut_ptr(),
        );
    }
    answer
}

/// An answer that is lent: its words, its text and the twelve numbers of its reading.
pub(crate) type Lent<'a> = (&'a [u32], &'a [u8], [u32; ANSWER]);

pub(crate) fn compare(first: Lent<'_>, second: Lent<'_>, list: &mut [u32]) -> [u32; ANSWER] {
    let mut answer = [0; ANSWER];
    // SAFETY: as above; the numbers of a reading are twelve.
    unsafe {
        stumpgarret_compare(
            first.0.as_ptr(),
            first.0.len(),
            first.1.as_ptr(),
            first.1.len(),
            first.2.as_ptr(),
            second.0.as_ptr(),
            second.0.len(),
            second.1.as_ptr(),
            second.1.len(),
            second.2.as_ptr(),
            list.as_mut_ptr(),
            list.len(),
            answer.as_mut_ptr(),
        );
    }
    answer
}

pub(crate) fn write(
    words: &[u32],
    text: &[u8],
    reading: &[u32; ANSWER],
    body: &mut [u8],
) -> [u32; ANSWER] {
    let mut answer = [0; ANSWER];
    // SAFETY: as above.
    unsafe {
        stumpgarret_write(
            words.as_ptr(),
            words.len(),
            text.as_ptr(),
            text.len(),
            reading.as_ptr(),
            body.as_mut_ptr(),
            body.len(),
            answer.as_mut_ptr(),
        );
    }
    answer
}

pub(crate) fn cuts_check(body: &[u8], limit: u32, offsets: &[u32]) -> [u32; ANSWER] {
    let mut answer = [0; ANSWER];
    // SAFETY: as above.
    unsafe {
        stumpgarret_cuts_check(
            body.as_ptr(),
            body.len(),
            limit,
            offsets.as_ptr(),
            offsets.len(),
            answer.as_mut_ptr(),
        );
    }
    answer
}

pub(crate) fn cuts_plan(body: &[u8], limit: u32, offsets: &mut [u32]) -> [u32; ANSWER] {
    let mut answer = [0; ANSWER];
    // SAFETY: as above.
    unsafe {
        stumpgarret_cuts_plan(
            body.as_ptr(),
            body.len(),
            limit,
            offsets.as_mut_ptr(),
            offsets.len(),
            answer.as_mut_ptr(),
        );
    }
    answer
}
