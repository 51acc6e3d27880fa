//! A batch stepped by the library, beside what the paper says that each step answers.

use super::question;
use super::question::Question;
use crate::desk::Desk;
use crate::desk::Written;
use crate::tally::Tally;
use jaskkovir::jobs::DONE;
use jaskkovir::Job;
use oracle::paper;
use shared::split_mix::SplitMix64;

/// What steps should have answered.
#[derive(Default)]
pub struct Steps {
    moved: u64,
    done: u64,
    refused: u64,
}

impl Steps {
    pub fn count(&mut self, answer: u8) {
        match answer {
            0 => self.moved += 1,
            DONE => self.done += 1,
            _ => self.refused += 1,
        }
    }

    pub fn told(&self) -> String {
        let Self {
            moved,
            done,
            refused,
        } = self;
        format!("steps {moved}, done {done}, refused {refused}")
    }
}

/// A batch that is stepped.
pub struct Play<'a> {
    question: &'a Question,
    desk: &'a mut Desk,
    tally: &'a mut Tally,
    steps: &'a mut Steps,
    /// The jobs as they should stand, for the paper and in bytes.
    jobs: Vec<paper::Job>,
    bytes: Vec<u8>,
    /// The buffers as the port leaves them; the desk has them as they were lent.
    ours: Written,
}

impl<'a> Play<'a> {
    pub fn new(
        question: &'a Question,
        desk: &'a mut Desk,
        tally: &'a mut Tally,
        steps: &'a mut Steps,
    ) -> Self {
        Self {
            question,
            tally,
            steps,
            jobs: question::for_paper(&question.jobs),
            bytes: question.jobs.clone(),
            ours: std::mem::take(&mut desk.ours),
            desk,
        }
    }

    /// Some steps of a batch that isn't admitted. What they leave is thrown away.
    pub fn try_some(mut self, random: &mut SplitMix64) {
        for _ in 0..random.below(4) {
            let k = match random.below(4) {
                0 => self.any_number(random),
                _ => random.below(self.jobs.len() + 1),
            };
            self.step(k);
        }
        self.ours.clone_from(&self.desk.wanted);
        self.desk.ours = self.ours;
    }

    /// All steps of a batch that is admitted, in any order, and others between them.
    pub fn finish(mut self, random: &mut SplitMix64) -> Result<(), String> {
        let steps = |job: &paper::Job| paper::steps(&self.desk.record, job);
        let counts: Vec<u32> = self.jobs.iter().map(steps).collect();
        let done = |jobs: &[paper::Job]| jobs.iter().map(|job| job.done).sum::<u32>();
        let left = counts.iter().sum::<u32>() - done(&self.jobs);
        let mut until_check = random.below(left as usize + 1);
        loop {
            let going: Vec<usize> = (0..counts.len())
                .filter(|&k| self.jobs[k].done < counts[k])
                .collect();
            let k = match random.below(20) {
                1.. if !going.is_empty() => going[random.below(going.len())],
                _ => self.any_number(random),
            };
            let answer = self.step(k);
            if answer == 0 {
                if until_check == 0 {
                    self.compare_in_list_order();
                }
                until_check = until_check.wrapping_sub(1);
            } else if k < counts.len() && answer != DONE {
                self.differ(|| format!("step {k} of an admitted batch should answer {answer}"));
                break;
            }
            if going.is_empty() {
                break;
            }
        }
        self.end()
    }

    /// A job of the batch, or a number that names none.
    fn any_number(&self, random: &mut SplitMix64) -> usize {
        match random.below(4) {
            0 => self.jobs.len() + random.below(10),
            1 => [usize::MAX, 1 << 32, 256][random.below(3)],
            _ => random.below(self.jobs.len() + 1),
        }
    }

    /// One step, and what the paper has it answer. What isn't counted changes nothing.
    fn step(&mut self, k: usize) -> u8 {
        let wanted = paper::step_answer(&self.question.handed(self.desk), &self.jobs, k);
        self.steps.count(wanted);
        let before = (wanted != 0).then(|| self.ours.clone());
        let mut bytes = self.bytes.clone();
        let answer = self.question.step(self.desk, &mut bytes, k, &mut self.ours);
        if wanted == 0 {
            self.jobs[k].done += 1;
            let done = &mut self.bytes[Job::LEN * k + Job::DONE_AT..][..4];
            done.copy_from_slice(&self.jobs[k].done.to_le_bytes());
        }
        let as_lent = before.is_none_or(|before| before == self.ours);
        let counted = bytes == self.bytes;
        if answer != wanted || !counted || !as_lent {
            self.differ(|| {
                format!(
                    "step {k}: ours {answer}, wanted {wanted}, the jobs' bytes as they should be: \
                     {counted}, buffers as they should be: {as_lent}"
                )
            });
        }
        wanted
    }

    /// Takes as many steps of each job, one job after the other.
    fn compare_in_list_order(&mut self) {
        let mut bytes = self.question.jobs.clone();
        let mut written = self.desk.wanted.clone();
        let lent = question::for_paper(&self.question.jobs);
        for (k, (from, to)) in lent.iter().zip(&self.jobs).enumerate() {
            for _ in from.done..to.done {
                self.question.step(self.desk, &mut bytes, k, &mut written);
            }
        }
        if written != self.ours || bytes != self.bytes {
            self.differ(|| "list order leaves something else".to_string());
        }
    }

    /// Compares with the jobs run whole in the Rust, where all their steps were taken here.
    fn end(mut self) -> Result<(), String> {
        let jobs = question::all(&self.question.jobs);
        if jobs.iter().any(|job| job.done > 0) {
            self.compare_in_list_order();
            self.desk.ours = self.ours;
            self.desk.go_on();
            return Ok(());
        }
        for job in &jobs {
            if !self.desk.run(job)? {
                self.tally.count_paper_alone();
            }
        }
        self.desk.take();
        if self.ours != self.desk.wanted {
            self.differ(|| "the jobs run whole leave something else".to_string());
            self.ours.clone_from(&self.desk.wanted);
        }
        self.desk.ours = self.ours;
        Ok(())
    }

    fn differ(&mut self, what: impl FnOnce() -> String) {
        self.question.tell(self.tally, what);
    }
}
