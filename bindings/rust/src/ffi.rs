//! The functions of the static library, and for each one a safe function on slices. What each does, and what its numbers
//! mean, is described in `include/zapelaritz.h`.
//!
//! No function has a condition on the bytes, numbers and lengths that it is given. What is left to the caller is what
//! references promise: that each pointer and length are those of a slice, and that a slice that is written overlaps no other.

// Some are called by tests alone.
#![cfg_attr(not(test), allow(dead_code))]
#![allow(clippy::too_many_arguments)]

#[cfg(test)]
mod edges;

/// What an accepted call returns; a refused one returns the refusal's number.
pub(crate) const ACCEPTED: u64 = 255;

/// The numbers of an answer: an accepted call's results, or the refusal's number and what it carries; zeros behind.
pub(crate) const ANSWER_SIZE: usize = 4;

/// A function that prints a part of what loaded tables hold.
pub(crate) type Print =
    fn(&[u8], &[u64], &[u64], &[u64], &[u64], usize, &mut [u8], &mut [u64]) -> u64;

extern "C" {
    fn zapelaritz_version() -> u64;

    fn zapelaritz_deck_limit() -> usize;

    fn zapelaritz_schema_size() -> usize;

    fn zapelaritz_elements_size() -> usize;

    fn zapelaritz_model_size() -> usize;

    fn zapelaritz_log_size() -> usize;

    fn zapelaritz_answer_size() -> usize;

    fn zapelaritz_load(
        deck: *const u8,
        deck_length: usize,
        schema: *mut u64,
        schema_length: usize,
        elements: *mut u64,
        elements_length: usize,
        model: *mut u64,
        model_length: usize,
        log: *mut u64,
        log_length: usize,
        answer: *mut u64,
        answer_length: usize,
    ) -> u64;

    fn zapelaritz_merge(
        deck: *const u8,
        deck_length: usize,
        schema: *const u64,
        schema_length: usize,
        elements: *const u64,
        elements_length: usize,
        model: *mut u64,
        model_length: usize,
        log: *mut u64,
        log_length: usize,
        file: u64,
        answer: *mut u64,
        answer_length: usize,
    ) -> u64;

    fn zapelaritz_rollback(
        deck: *const u8,
        deck_length: usize,
        schema: *const u64,
        schema_length: usize,
        elements: *const u64,
        elements_length: usize,
        model: *mut u64,
        model_length: usize,
        log: *mut u64,
        log_length: usize,
        mark: u64,
        answer: *mut u64,
        answer_length: usize,
    ) -> u64;

    fn zapelaritz_range(
        deck: *const u8,
        deck_length: usize,
        schema: *const u64,
        schema_length: usize,
        elements: *const u64,
        elements_length: usize,
        model: *const u64,
        model_length: usize,
        log: *const u64,
        log_length: usize,
        element: u64,
        name: u64,
        version: u64,
        answer: *mut u64,
        answer_length: usize,
    ) -> u64;

    fn zapelaritz_mark(
        deck: *const u8,
        deck_length: usize,
        schema: *const u64,
        schema_length: usize,
        elements: *const u64,
        elements_length: usize,
        model: *const u64,
        model_length: usize,
        log: *const u64,
        log_length: usize,
        answer: *mut u64,
        answer_length: usize,
    ) -> u64;

    fn zapelaritz_print_model(
        deck: *const u8,
        deck_length: usize,
        schema: *const u64,
        schema_length: usize,
        elements: *const u64,
        elements_length: usize,
        model: *const u64,
        model_length: usize,
        log: *const u64,
        log_length: usize,
        from: usize,
        out: *mut u8,
        out_length: usize,
        answer: *mut u64,
        answer_length: usize,
    ) -> u64;

    fn zapelaritz_print_trees(
        deck: *const u8,
        deck_length: usize,
        schema: *const u64,
        schema_length: usize,
        elements: *const u64,
        elements_length: usize,
        model: *const u64,
        model_length: usize,
        log: *const u64,
        log_length: usize,
        from: usize,
        out: *mut u8,
        out_length: usize,
        answer: *mut u64,
        answer_length: usize,
    ) -> u64;

    fn zapelaritz_print_log(
        deck: *const u8,
        deck_length: usize,
        schema: *const u64,
        schema_length: usize,
        elements: *const u64,
        elements_length: usize,
        model: *const u64,
        model_length: usize,
        log: *const u64,
        log_length: usize,
        from: usize,
        out: *mut u8,
        out_length: usize,
        answer: *mut u64,
        answer_length: usize,
    ) -> u64;

    fn zapelaritz_print_output(
        deck: *const u8,
        deck_length: usize,
        from: usize,
        out: *mut u8,
        out_length: usize,
    ) -> usize;

    fn zapelaritz_print_calls(
        deck: *const u8,
        deck_length: usize,
        calls: *const u8,
        calls_length: usize,
        from: usize,
        out: *mut u8,
        out_length: usize,
    ) -> usize;
}

pub(crate) fn version() -> u64 {
    // SAFETY: the function takes nothing.
    unsafe { zapelaritz_version() }
}

pub(crate) fn deck_limit() -> usize {
    // SAFETY: the function takes nothing.
    unsafe { zapelaritz_deck_limit() }
}

pub(crate) fn schema_size() -> usize {
    // SAFETY: the function takes nothing.
    unsafe { zapelaritz_schema_size() }
}

pub(crate) fn elements_size() -> usize {
    // SAFETY: the function takes nothing.
    unsafe { zapelaritz_elements_size() }
}

pub(crate) fn model_size() -> usize {
    // SAFETY: the function takes nothing.
    unsafe { zapelaritz_model_size() }
}

pub(crate) fn log_size() -> usize {
    // SAFETY: the function takes nothing.
    unsafe { zapelaritz_log_size() }
}

pub(crate) fn answer_size() -> usize {
    // SAFETY: the function takes nothing.
    unsafe { zapelaritz_answer_size() }
}

pub(crate) fn load(
    deck: &[u8],
    schema: &mut [u64],
    elements: &mut [u64],
    model: &mut [u64],
    log: &mut [u64],
    answer: &mut [u64],
) -> u64 {
    // SAFETY: each pointer and length are those of a slice, and the references keep those that are written apart.
    unsafe {
        zapelaritz_load(
            deck.as_ptr(),
            deck.len(),
            schema.as_mut_ptr(),
            schema.len(),
            elements.as_mut_ptr(),
            elements.len(),
            model.as_mut_ptr(),
            model.len(),
            log.as_mut_ptr(),
            log.len(),
            answer.as_mut_ptr(),
            answer.len(),
        )
    }
}

pub(crate) fn merge(
    deck: &[u8],
    schema: &[u64],
    elements: &[u64],
    model: &mut [u64],
    log: &mut [u64],
    file: u64,
    answer: &mut [u64],
) -> u64 {
    // SAFETY: as for `load`.
    unsafe {
        zapelaritz_merge(
            deck.as_ptr(),
            deck.len(),
            schema.as_ptr(),
            schema.len(),
            elements.as_ptr(),
            elements.len(),
            model.as_mut_ptr(),
            model.len(),
            log.as_mut_ptr(),
            log.len(),
            file,
            answer.as_mut_ptr(),
            answer.len(),
        )
    }
}

pub(crate) fn rollback(
    deck: &[u8],
    schema: &[u64],
    elements: &[u64],
    model: &mut [u64],
    log: &mut [u64],
    mark: u64,
    answer: &mut [u64],
) -> u64 {
    // SAFETY: as for `load`.
    unsafe {
        zapelaritz_rollback(
            deck.as_ptr(),
            deck.len(),
            schema.as_ptr(),
            schema.len(),
            elements.as_ptr(),
            elements.len(),
            model.as_mut_ptr(),
            model.len(),
            log.as_mut_ptr(),
            log.len(),
            mark,
            answer.as_mut_ptr(),
            answer.len(),
        )
    }
}

pub(crate) fn range(
    deck: &[u8],
    schema: &[u64],
    elements: &[u64],
    model: &[u64],
    log: &[u64],
    element: u64,
    name: u64,
    version: u64,
    answer: &mut [u64],
) -> u64 {
    // SAFETY: as for `load`.
    unsafe {
        zapelaritz_range(
            deck.as_ptr(),
            deck.len(),
            schema.as_ptr(),
            schema.len(),
            elements.as_ptr(),
            elements.len(),
            model.as_ptr(),
            model.len(),
            log.as_ptr(),
            log.len(),
            element,
            name,
            version,
            answer.as_mut_ptr(),
            answer.len(),
        )
    }
}

pub(crate) fn mark(
    deck: &[u8],
    schema: &[u64],
    elements: &[u64],
    model: &[u64],
    log: &[u64],
    answer: &mut [u64],
) -> u64 {
    // SAFETY: as for `load`.
    unsafe {
        zapelaritz_mark(
            deck.as_ptr(),
            deck.len(),
            schema.as_ptr(),
            schema.len(),
            elements.as_ptr(),
            elements.len(),
            model.as_ptr(),
            model.len(),
            log.as_ptr(),
            log.len(),
            answer.as_mut_ptr(),
            answer.len(),
        )
    }
}

pub(crate) fn print_model(
    deck: &[u8],
    schema: &[u64],
    elements: &[u64],
    model: &[u64],
    log: &[u64],
    from: usize,
    out: &mut [u8],
    answer: &mut [u64],
) -> u64 {
    // SAFETY: as for `load`.
    unsafe {
        zapelaritz_print_model(
            deck.as_ptr(),
            deck.len(),
            schema.as_ptr(),
            schema.len(),
            elements.as_ptr(),
            elements.len(),
            model.as_ptr(),
            model.len(),
            log.as_ptr(),
            log.len(),
            from,
            out.as_mut_ptr(),
            out.len(),
            answer.as_mut_ptr(),
            answer.len(),
        )
    }
}

pub(crate) fn print_trees(
    deck: &[u8],
    schema: &[u64],
    elements: &[u64],
    model: &[u64],
    log: &[u64],
    from: usize,
    out: &mut [u8],
    answer: &mut [u64],
) -> u64 {
    // SAFETY: as for `load`.
    unsafe {
        zapelaritz_print_trees(
            deck.as_ptr(),
            deck.len(),
            schema.as_ptr(),
            schema.len(),
            elements.as_ptr(),
            elements.len(),
            model.as_ptr(),
            model.len(),
            log.as_ptr(),
            log.len(),
            from,
            out.as_mut_ptr(),
            out.len(),
            answer.as_mut_ptr(),
            answer.len(),
        )
    }
}

pub(crate) fn print_log(
    deck: &[u8],
    schema: &[u64],
    elements: &[u64],
    model: &[u64],
    log: &[u64],
    from: usize,
    out: &mut [u8],
    answer: &mut [u64],
) -> u64 {
    // SAFETY: as for `load`.
    unsafe {
        zapelaritz_print_log(
            deck.as_ptr(),
            deck.len(),
            schema.as_ptr(),
            schema.len(),
            elements.as_ptr(),
            elements.len(),
            model.as_ptr(),
            model.len(),
            log.as_ptr(),
            log.len(),
            from,
            out.as_mut_ptr(),
            out.len(),
            answer.as_mut_ptr(),
            answer.len(),
        )
    }
}

pub(crate) fn print_output(deck: &[u8], from: usize, out: &mut [u8]) -> usize {
    // SAFETY: as for `load`.
    unsafe { zapelaritz_print_output(deck.as_ptr(), deck.len(), from, out.as_mut_ptr(), out.len()) }
}

pub(crate) fn print_calls(deck: &[u8], calls: &[u8], from: usize, out: &mut [u8]) -> usize {
    // SAFETY: as for `load`.
    unsafe {
        zapelaritz_print_calls(
            deck.as_ptr(),
            deck.len(),
            calls.as_ptr(),
            calls.len(),
            from,
            out.as_mut_ptr(),
            out.len(),
        )
    }
}
