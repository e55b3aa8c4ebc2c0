//! Writes a fixed sample: frames to one file and the answers they must get to another. The cut sources come last.

use crate::answer::answer;
use crate::cases::Cases;
use crate::crate_side::CrateSide;
use crate::cuts;
use crate::options;

/// The cases of each op in a sample, where nothing else is said.
const USUAL: u64 = 400;

pub fn run(words: &[String]) -> Result<(), String> {
    let options = options::parse(words)?;
    let each = options.cases.unwrap_or(USUAL);
    let [frames_file, expected_file] = &options.rest[..] else {
        return Err(format!("sample wants two files to write\n{}", options::USAGE));
    };
    let cases = Cases::new(options.seed, &options.families, true)?;
    let (mut frames, mut expected) = (Vec::new(), Vec::new());
    for &op in &options.ops {
        for number in 0..each {
            let frame = cases.frame(op, number);
            frame.put(&mut frames);
            answer(&CrateSide, &frame, &mut expected);
        }
    }
    let cut: Vec<_> = cuts::frames().into_iter().filter(|frame| options.ops.contains(&frame.op)).collect();
    for frame in &cut {
        frame.put(&mut frames);
        answer(&CrateSide, frame, &mut expected);
    }
    let written =
        |file: &str, bytes: &[u8]| std::fs::write(file, bytes).map_err(|error| format!("{file}: {error}"));
    written(frames_file, &frames)?;
    written(expected_file, &expected)?;
    let total = each * options.ops.len() as u64 + cut.len() as u64;
    println!("wrote {total} cases: {} bytes of frames, {} bytes of answers", frames.len(), expected.len());
    Ok(())
}
