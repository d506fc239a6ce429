//! What is no pass, in words: all that a reader must know, and nothing that reads as a pass.

use station::{Fault, JudgeError, Refusal};

/// Words that a reader, or a search, could take for a pass.
const PASS: &str = "complete completed correct done good ok okay pass passed right success written";

/// The sentence has each of these, begins with its kind, and has no word of a pass.
fn says(error: JudgeError, kind: &str, parts: &[&str]) {
    let sentence = error.to_string();
    for part in parts {
        assert!(sentence.contains(part), "{sentence}: {part}");
    }
    let begins = format!("{kind} {} ({})", error.number(), error.name());
    assert!(sentence.starts_with(&begins), "{sentence}");
    let lower = sentence.to_lowercase();
    for word in lower.split(|letter: char| !letter.is_alphabetic()) {
        assert!(PASS.split(' ').all(|pass| pass != word), "{sentence}");
    }
}

#[test]
fn a_fault_says_its_place_and_its_meaning() {
    for &fault in Fault::ALL {
        let error = JudgeError::Fault {
            fault,
            tick: 7001,
            step: 803,
            count: 5,
        };
        assert_eq!(
            (error.number(), error.name()),
            (fault.number(), fault.name())
        );
        says(error, "fault", &["tick 7001", "step 803", fault.meaning()]);
    }
}

#[test]
fn a_refusal_says_its_meaning_and_its_step_if_it_has_one() {
    for &refusal in Refusal::ALL {
        let error = JudgeError::Refusal { refusal, step: 803 };
        assert_eq!(
            (error.number(), error.name()),
            (refusal.number(), refusal.name())
        );
        says(error, "refusal", &[refusal.meaning()]);
        let has_step = [6, 7].contains(&refusal.number());
        assert_eq!(error.to_string().contains("step 803"), has_step);
    }
}
