//! Jobs: admission and steps. Batches that are admitted are stepped in a random order until all
//! their jobs are done, and then both buffers are what the Rust makes of the jobs run whole.

mod play;
mod question;

use crate::desk::Desk;
use crate::frames;
use crate::names;
use crate::options::Options;
use crate::tally::Tally;
use play::Play;
use play::Steps;
use question::Question;

/// Batches on one frame, whose buffers go on.
const ON_A_FRAME: u64 = 50;

pub fn compare(options: &Options) -> Result<Tally, String> {
    let mut random = options.random(names::JOBS);
    let mut tally = Tally::default();
    let mut steps = Steps::default();
    for i in 0..options.cases(50_000, 1_000_000) / ON_A_FRAME {
        let limits = match i % 200 {
            0 => frames::LARGE,
            _ => frames::SMALL,
        };
        let record = frames::record(&mut random, limits);
        let mut desk = Desk::new(&mut random, record);
        for _ in 0..ON_A_FRAME {
            let question = Question::any(&mut random, &desk);
            let before = question.put.map(|put| desk.put(put));
            let answer = question.admit(&desk, &mut tally);
            let play = Play::new(&question, &mut desk, &mut tally, &mut steps);
            if answer == 0 {
                play.finish(&mut random)?;
            } else {
                play.try_some(&mut random);
            }
            if let Some(before) = before {
                desk.put(before);
            }
        }
    }
    tally.note = steps.told();
    Ok(tally)
}
