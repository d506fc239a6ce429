//! The writer as a program uses it.

use station::{write, written_length, WriteRefusal, Written, MOST_BYTES};

#[test]
fn a_recording_is_the_beginning_of_the_destination() {
    let s1 = include_bytes!("../../../samples/s1.rec");
    let mut destination = [0xA5; 200];
    let written: Written = write(b"A", &mut destination).unwrap();
    assert_eq!(written.recording(), s1);
    assert_eq!(destination[..s1.len()], *s1);
    assert_eq!(destination[s1.len()..], [0xA5; 200][s1.len()..]);
}

#[test]
fn a_refusal_is_an_error_and_changes_nothing() {
    fn length(bytes: &[u8], room: &mut [u8]) -> Result<usize, Box<dyn std::error::Error>> {
        Ok(write(bytes, room)?.recording().len())
    }
    let mut destination = vec![0xA5; written_length(MOST_BYTES)];
    let error = length(&[0; MOST_BYTES + 1], &mut destination).unwrap_err();
    assert_eq!(error.downcast_ref(), Some(&WriteRefusal::TooManyBytes));
    let (_, short) = destination.split_first_mut().unwrap();
    let error = length(&[0; MOST_BYTES], short).unwrap_err();
    assert_eq!(error.to_string(), "short-destination");
    assert!(destination.iter().all(|place| *place == 0xA5));
    let most = length(&[0; MOST_BYTES], &mut destination).unwrap();
    assert_eq!(most, written_length(MOST_BYTES));
}
