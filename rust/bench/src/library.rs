//! The proved library through its C interface: the calls that are measured, over slices.

/// What every call answers.
#[repr(C)]
#[derive(Clone, Copy, Debug, PartialEq, Eq)]
pub struct Answer {
    pub number: u64,
    pub place: u64,
    pub by: u64,
}

extern "C" {
    fn dovetrellis_judge(table: *const u8, table_length: usize) -> Answer;
    fn dovetrellis_fire(
        table: *const u8,
        table_length: usize,
        marking: *mut u8,
        marking_length: usize,
        event: u16,
    ) -> Answer;
    fn dovetrellis_replay(
        table: *const u8,
        table_length: usize,
        run: *const u16,
        run_length: usize,
        end: *mut u8,
        end_length: usize,
    ) -> Answer;
    fn dovetrellis_lift(
        table: *const u8,
        table_length: usize,
        run: *const u16,
        run_length: usize,
        out: *mut u16,
        out_length: usize,
    ) -> Answer;
    fn dovetrellis_project(
        table: *const u8,
        table_length: usize,
        lifted: *const u16,
        lifted_length: usize,
        out: *mut u16,
        out_length: usize,
    ) -> Answer;
    fn dovetrellis_event_origin(
        table: *const u8,
        table_length: usize,
        unfolded: u16,
        markers: *mut u32,
        markers_length: usize,
        event: *mut u16,
        count: *mut u64,
    ) -> Answer;
    fn dovetrellis_event_number(
        table: *const u8,
        table_length: usize,
        event: u16,
        markers: *const u32,
        markers_length: usize,
        unfolded: *mut u16,
    ) -> Answer;
    fn dovetrellis_unfolded_pre(
        table: *const u8,
        table_length: usize,
        unfolded: u16,
        out: *mut u16,
        out_length: usize,
        count: *mut u64,
    ) -> Answer;
    fn dovetrellis_unfolded_post(
        table: *const u8,
        table_length: usize,
        unfolded: u16,
        out: *mut u16,
        out_length: usize,
        count: *mut u64,
    ) -> Answer;
    fn dovetrellis_unfolded_fire(
        table: *const u8,
        table_length: usize,
        marking: *mut u8,
        marking_length: usize,
        unfolded: u16,
    ) -> Answer;
    fn dovetrellis_element(
        table: *const u8,
        table_length: usize,
        element: u64,
        out: *mut u8,
        out_length: usize,
        count: *mut u64,
    ) -> Answer;
}

// Safety, for every call below: pointers and lengths are those of slices, which do not overlap, and the header asks no more.

pub fn judge(table: &[u8]) -> Answer {
    unsafe { dovetrellis_judge(table.as_ptr(), table.len()) }
}

pub fn fire(table: &[u8], marking: &mut [u8], event: u16) -> Answer {
    unsafe {
        dovetrellis_fire(
            table.as_ptr(),
            table.len(),
            marking.as_mut_ptr(),
            marking.len(),
            event,
        )
    }
}

pub fn replay(table: &[u8], run: &[u16], end: &mut [u8]) -> Answer {
    unsafe {
        dovetrellis_replay(
            table.as_ptr(),
            table.len(),
            run.as_ptr(),
            run.len(),
            end.as_mut_ptr(),
            end.len(),
        )
    }
}

/// A call that takes a run to another one.
type Across = unsafe extern "C" fn(*const u8, usize, *const u16, usize, *mut u16, usize) -> Answer;

/// A call that lists something of an unfolded event.
type Lists = unsafe extern "C" fn(*const u8, usize, u16, *mut u16, usize, *mut u64) -> Answer;

fn across(call: Across, table: &[u8], run: &[u16], out: &mut [u16]) -> Answer {
    unsafe {
        call(
            table.as_ptr(),
            table.len(),
            run.as_ptr(),
            run.len(),
            out.as_mut_ptr(),
            out.len(),
        )
    }
}

fn lists(call: Lists, table: &[u8], unfolded: u16, out: &mut [u16]) -> Answer {
    let mut count = 0;
    unsafe {
        call(
            table.as_ptr(),
            table.len(),
            unfolded,
            out.as_mut_ptr(),
            out.len(),
            &mut count,
        )
    }
}

pub fn lift(table: &[u8], run: &[u16], out: &mut [u16]) -> Answer {
    across(dovetrellis_lift, table, run, out)
}

pub fn project(table: &[u8], lifted: &[u16], out: &mut [u16]) -> Answer {
    across(dovetrellis_project, table, lifted, out)
}

pub fn event_origin(table: &[u8], unfolded: u16, markers: &mut [u32]) -> Answer {
    let (mut event, mut count) = (0, 0);
    unsafe {
        dovetrellis_event_origin(
            table.as_ptr(),
            table.len(),
            unfolded,
            markers.as_mut_ptr(),
            markers.len(),
            &mut event,
            &mut count,
        )
    }
}

pub fn event_number(table: &[u8], event: u16, markers: &[u32], unfolded: &mut u16) -> Answer {
    unsafe {
        dovetrellis_event_number(
            table.as_ptr(),
            table.len(),
            event,
            markers.as_ptr(),
            markers.len(),
            unfolded,
        )
    }
}

pub fn unfolded_pre(table: &[u8], unfolded: u16, out: &mut [u16]) -> Answer {
    lists(dovetrellis_unfolded_pre, table, unfolded, out)
}

pub fn unfolded_post(table: &[u8], unfolded: u16, out: &mut [u16]) -> Answer {
    lists(dovetrellis_unfolded_post, table, unfolded, out)
}

pub fn unfolded_fire(table: &[u8], marking: &mut [u8], unfolded: u16) -> Answer {
    unsafe {
        dovetrellis_unfolded_fire(
            table.as_ptr(),
            table.len(),
            marking.as_mut_ptr(),
            marking.len(),
            unfolded,
        )
    }
}

pub fn element(table: &[u8], element: u64, out: &mut [u8]) -> Answer {
    let mut count = 0;
    unsafe {
        dovetrellis_element(
            table.as_ptr(),
            table.len(),
            element,
            out.as_mut_ptr(),
            out.len(),
            &mut count,
        )
    }
}
