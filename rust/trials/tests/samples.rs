//! Both judges and both writers held to the sample recordings, as they stand in samples/ and, of commands, in samples/commands/.

use by_steps::Answer;
use parties::{file_of, Step, LONGEST, MOST_STEPS};
use station::WRITTEN;
use std::path::Path;
use trials::name_of;

type Judge = fn(&[u8], &mut [u8], &mut [u32]) -> Answer;

const JUDGES: [Judge; 2] = [trials::judge, by_steps::judge];
const COMMAND_JUDGES: [Judge; 2] = [trials::judge_command, by_steps::judge_command];

/// The names and bytes of a folder's samples, by their names.
fn samples(folder: &str) -> Vec<(String, Vec<u8>)> {
    let folder = Path::new(env!("CARGO_MANIFEST_DIR"))
        .join("../..")
        .join(folder);
    let files = std::fs::read_dir(folder)
        .unwrap()
        .map(|entry| entry.unwrap());
    let mut samples: Vec<_> = files
        .map(|file| (file.file_name().into_string().unwrap(), file.path()))
        .filter(|(name, _)| name.ends_with(".rec"))
        .map(|(name, path)| (name, std::fs::read(path).unwrap()))
        .collect();
    samples.sort();
    samples
}

/// A judgement as bin/judge prints it, but for the classes. No place beyond the count may have changed.
fn judged(judge: Judge, name: &str, file: &[u8]) -> String {
    let (mut bytes, mut ledger) = ([0xA5; 1000], [7; 2000]);
    let Answer {
        number,
        tick,
        step,
        count,
    } = judge(file, &mut bytes, &mut ledger);
    let (handed, kept) = bytes.split_at(count as usize);
    let (ticks, kept_ticks) = ledger.split_at(2 * handed.len());
    assert!(kept.iter().all(|place| *place == 0xA5), "{name}");
    assert!(kept_ticks.iter().all(|place| *place == 7), "{name}");
    let mut text = format!(
        "{number} {tick} {step} {count} {} {name}\n",
        name_of(number)
    );
    if count > 0 {
        let bytes: String = handed.iter().map(|byte| format!(" {byte:02x}")).collect();
        let ticks: String = ticks.iter().map(|tick| format!(" {tick}")).collect();
        text += &format!("bytes{bytes}\nledger{ticks}\n");
    }
    text
}

/// Each of the folder's samples has its stored answer, by each judge.
fn have_their_stored_answers(folder: &str, judges: [Judge; 2], stored: &str) {
    for judge in judges {
        let each = samples(folder)
            .into_iter()
            .map(|(name, file)| judged(judge, &format!("{folder}/{name}"), &file));
        assert_eq!(each.collect::<String>(), stored);
    }
}

#[test]
fn every_sample_has_its_stored_answer() {
    let stored = include_str!("../../../samples/answers.txt");
    have_their_stored_answers("samples", JUDGES, stored);
}

#[test]
fn every_sample_of_commands_has_its_stored_answer() {
    let stored = include_str!("../../../samples/commands/answers.txt");
    let lines = stored.split_inclusive('\n');
    let without_classes: String = lines.filter(|line| !line.starts_with("classes ")).collect();
    have_their_stored_answers("samples/commands", COMMAND_JUDGES, &without_classes);
}

#[test]
fn the_longest_recording_is_judged_to_its_end() {
    // The receiver takes DATA at tick 0, and the sender never goes on. Tick by tick it would take seconds.
    let hold = Step::new(LONGEST, 6);
    let file = file_of(&[hold; MOST_STEPS]);
    for judge in JUDGES {
        let answer = judge(&file, &mut [0; 1000], &mut [0; 2000]);
        let end = Answer {
            number: 22,
            tick: 1_048_560_000,
            step: 16_000,
            count: 0,
        };
        assert_eq!(answer, end);
    }
}

#[test]
fn both_writers_write_the_samples() {
    let s1 = include_bytes!("../../../samples/s1.rec");
    let none = include_bytes!("../../../samples/written-from-no-bytes.rec");
    for (string, sample) in [(&b"A"[..], &s1[..]), (b"", none)] {
        let (mut ours, mut other) = (vec![0; sample.len()], vec![0; sample.len()]);
        assert_eq!(trials::write(string, &mut ours).number, WRITTEN);
        assert_eq!(by_steps::write(string, &mut other).number, 0);
        assert_eq!((&ours[..], &other[..]), (sample, sample));
    }
}
