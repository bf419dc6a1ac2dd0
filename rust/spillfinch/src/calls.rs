//! The operations as the library exports them: any bytes, any room, the whole answer.

/// The numbers that every call writes.
pub type Answer = [u32; 8];

/// Places in an answer.
pub const NUMBER: usize = 0;
pub const LINE: usize = 1;
pub const VISITED: usize = 2;
pub const USED: usize = 3;
pub const TRIED: usize = 4;
/// Of the record or file of a set that is refused.
pub const POSITION: usize = 5;
/// Of entries, or a verdict; the operation says of what.
pub const COUNT: usize = 6;

extern "C" {
    fn spillfinch_check(text: *const u8, text_length: usize, answer: *mut Answer);

    fn spillfinch_fresh(
        device: *const u8,
        device_length: usize,
        target: *mut u8,
        target_length: usize,
        answer: *mut Answer,
    );

    fn spillfinch_run(
        text: *const u8,
        text_length: usize,
        device: *const u8,
        device_length: usize,
        outcome: *const u8,
        outcome_length: usize,
        sheet: *const u8,
        sheet_length: usize,
        target: *mut u8,
        target_length: usize,
        answer: *mut Answer,
    );

    fn spillfinch_run_files(
        set: *const u8,
        set_length: usize,
        device: *const u8,
        device_length: usize,
        outcome: *const u8,
        outcome_length: usize,
        sheet: *const u8,
        sheet_length: usize,
        target: *mut u8,
        target_length: usize,
        answer: *mut Answer,
    );

    fn spillfinch_run_each(
        text: *const u8,
        text_length: usize,
        set: *const u8,
        set_length: usize,
        sheet: *const u8,
        sheet_length: usize,
        targets: *mut u8,
        targets_length: usize,
        answers: *mut u32,
        answers_length: usize,
        answer: *mut Answer,
    );

    fn spillfinch_close(
        device: *const u8,
        device_length: usize,
        outcome: *const u8,
        outcome_length: usize,
        target: *mut u8,
        target_length: usize,
        answer: *mut Answer,
    );

    fn spillfinch_contest(
        set: *const u8,
        set_length: usize,
        target: *mut u8,
        target_length: usize,
        answer: *mut Answer,
    );

    fn spillfinch_write(
        text: *const u8,
        text_length: usize,
        target: *mut u8,
        target_length: usize,
        answer: *mut Answer,
    );

    fn spillfinch_strike(
        text: *const u8,
        text_length: usize,
        target: *mut u8,
        target_length: usize,
        strikes: *mut u16,
        strikes_length: usize,
        answer: *mut Answer,
    );

    fn spillfinch_plan_check(
        set: *const u8,
        set_length: usize,
        text: *const u8,
        text_length: usize,
        answer: *mut Answer,
    );

    fn spillfinch_plan(
        set: *const u8,
        set_length: usize,
        target: *mut u8,
        target_length: usize,
        answer: *mut Answer,
    );

    fn spillfinch_newer(
        device: *const u8,
        device_length: usize,
        outcome: *const u8,
        outcome_length: usize,
        target: *mut u8,
        target_length: usize,
        answer: *mut Answer,
    );

    fn spillfinch_older(
        device: *const u8,
        device_length: usize,
        outcome: *const u8,
        outcome_length: usize,
        target: *mut u8,
        target_length: usize,
        answer: *mut Answer,
    );
}

// Each call gives pointers and lengths of slices that live through it; what is written is
// borrowed mutably, so it overlaps nothing else.

pub fn check(text: &[u8], answer: &mut Answer) {
    unsafe { spillfinch_check(text.as_ptr(), text.len(), answer) }
}

pub fn fresh(device: &[u8], target: &mut [u8], answer: &mut Answer) {
    unsafe {
        spillfinch_fresh(
            device.as_ptr(),
            device.len(),
            target.as_mut_ptr(),
            target.len(),
            answer,
        );
    }
}

pub fn run(
    text: &[u8],
    device: &[u8],
    outcome: &[u8],
    sheet: &[u8],
    target: &mut [u8],
    answer: &mut Answer,
) {
    unsafe {
        spillfinch_run(
            text.as_ptr(),
            text.len(),
            device.as_ptr(),
            device.len(),
            outcome.as_ptr(),
            outcome.len(),
            sheet.as_ptr(),
            sheet.len(),
            target.as_mut_ptr(),
            target.len(),
            answer,
        );
    }
}

pub fn run_files(
    set: &[u8],
    device: &[u8],
    outcome: &[u8],
    sheet: &[u8],
    target: &mut [u8],
    answer: &mut Answer,
) {
    unsafe {
        spillfinch_run_files(
            set.as_ptr(),
            set.len(),
            device.as_ptr(),
            device.len(),
            outcome.as_ptr(),
            outcome.len(),
            sheet.as_ptr(),
            sheet.len(),
            target.as_mut_ptr(),
            target.len(),
            answer,
        );
    }
}

pub fn run_each(
    text: &[u8],
    set: &[u8],
    sheet: &[u8],
    targets: &mut [u8],
    answers: &mut [u32],
    answer: &mut Answer,
) {
    unsafe {
        spillfinch_run_each(
            text.as_ptr(),
            text.len(),
            set.as_ptr(),
            set.len(),
            sheet.as_ptr(),
            sheet.len(),
            targets.as_mut_ptr(),
            targets.len(),
            answers.as_mut_ptr(),
            answers.len(),
            answer,
        );
    }
}

pub fn close(device: &[u8], outcome: &[u8], target: &mut [u8], answer: &mut Answer) {
    unsafe {
        spillfinch_close(
            device.as_ptr(),
            device.len(),
            outcome.as_ptr(),
            outcome.len(),
            target.as_mut_ptr(),
            target.len(),
            answer,
        );
    }
}

pub fn contest(set: &[u8], target: &mut [u8], answer: &mut Answer) {
    unsafe {
        spillfinch_contest(
            set.as_ptr(),
            set.len(),
            target.as_mut_ptr(),
            target.len(),
            answer,
        );
    }
}

pub fn write(text: &[u8], target: &mut [u8], answer: &mut Answer) {
    unsafe {
        spillfinch_write(
            text.as_ptr(),
            text.len(),
            target.as_mut_ptr(),
            target.len(),
            answer,
        );
    }
}

pub fn strike(text: &[u8], target: &mut [u8], strikes: &mut [u16], answer: &mut Answer) {
    unsafe {
        spillfinch_strike(
            text.as_ptr(),
            text.len(),
            target.as_mut_ptr(),
            target.len(),
            strikes.as_mut_ptr(),
            strikes.len(),
            answer,
        );
    }
}

pub fn plan_check(set: &[u8], text: &[u8], answer: &mut Answer) {
    unsafe {
        spillfinch_plan_check(set.as_ptr(), set.len(), text.as_ptr(), text.len(), answer);
    }
}

pub fn plan(set: &[u8], target: &mut [u8], answer: &mut Answer) {
    unsafe {
        spillfinch_plan(
            set.as_ptr(),
            set.len(),
            target.as_mut_ptr(),
            target.len(),
            answer,
        );
    }
}

pub fn newer(device: &[u8], outcome: &[u8], target: &mut [u8], answer: &mut Answer) {
    unsafe {
        spillfinch_newer(
            device.as_ptr(),
            device.len(),
            outcome.as_ptr(),
            outcome.len(),
            target.as_mut_ptr(),
            target.len(),
            answer,
        );
    }
}

pub fn older(device: &[u8], outcome: &[u8], target: &mut [u8], answer: &mut Answer) {
    unsafe {
        spillfinch_older(
            device.as_ptr(),
            device.len(),
            outcome.as_ptr(),
            outcome.len(),
            target.as_mut_ptr(),
            target.len(),
            answer,
        );
    }
}
