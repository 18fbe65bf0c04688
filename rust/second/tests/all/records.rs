//! Run and Lifted records, read and written (01, Table records; Runs across).

use second::records::{read_lifted, read_run, write_lifted, write_run};
use second::refusal::Answer;

use crate::common::{refused, written};

/// A Run record read with some room.
fn read(input: &[u8], room: usize) -> Answer<Vec<u16>> {
    written(777, room, |out| read_run(input, out))
}

#[test]
fn a_run_is_written_and_read_back() {
    let record = written(7, 20, |out| write_run(&[0, 1, 258], out)).unwrap();
    assert_eq!(record, [6, 0, 4, 0, 0, 0, 1, 0, 2, 1]);
    assert_eq!(read(&record, 5), Ok(vec![0, 1, 258]));
    assert_eq!(read(&record, 3), Ok(vec![0, 1, 258]));
    assert_eq!(read(&record, 2), refused(16, 3));
}

#[test]
fn a_lifted_run_is_written_and_read_back() {
    let record = written(7, 8, |out| write_lifted(&[65_535, 9], out)).unwrap();
    assert_eq!(record, [4, 0, 5, 0, 255, 255, 9, 0]);
    assert_eq!(
        written(777, 2, |out| read_lifted(&record, out)),
        Ok(vec![65_535, 9])
    );
    assert_eq!(
        written(777, 1, |out| read_lifted(&record, out)),
        refused(16, 2)
    );
    assert_eq!(read(&record, 9), refused(2, 0));
    assert_eq!(
        written(7, 7, |out| write_lifted(&[65_535, 9], out)),
        refused(16, 8)
    );
}

#[test]
fn an_empty_run_is_a_record_of_four_bytes() {
    assert_eq!(
        written(7, 4, |out| write_run(&[], out)),
        Ok(vec![0, 0, 4, 0])
    );
    assert_eq!(written(7, 3, |out| write_run(&[], out)), refused(16, 4));
    assert_eq!(read(&[0, 0, 4, 0], 0), Ok(vec![]));
}

#[test]
fn runs_of_4096_steps_have_a_record_and_longer_ones_not() {
    let run = vec![3; 4_097];
    let record = written(7, 9_000, |out| write_run(&run[..4_096], out)).unwrap();
    assert_eq!(record.len(), 8_196);
    assert_eq!(read(&record, 4_096), Ok(vec![3; 4_096]));
    assert_eq!(written(7, 0, |out| write_run(&run, out)), refused(3, 0));
    assert_eq!(
        written(7, 9_000, |out| write_lifted(&run, out)),
        refused(3, 0)
    );
    let long = [&[2, 32, 4, 0][..], &vec![0; 8_194]].concat();
    assert_eq!(read(&long, 9_000), refused(3, 0));
}

#[test]
fn the_order_is_1_2_3_9_16() {
    assert_eq!(read(&[], 0), refused(1, 0));
    assert_eq!(read(&[0, 0, 4], 0), refused(1, 0));
    assert_eq!(read(&[1, 0, 5, 0], 0), refused(1, 0));
    assert_eq!(read(&[1, 0, 5, 0, 0], 0), refused(2, 0));
    assert_eq!(read(&[1, 0, 4, 0, 0, 0], 0), refused(3, 0));
    assert_eq!(read(&[2, 0, 4, 0, 0, 0, 9], 0), refused(9, 6));
    assert_eq!(read(&[2, 0, 4, 0, 0, 0], 0), refused(16, 1));
}
