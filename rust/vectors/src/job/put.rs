//! The questions of a batch: its admission, and what is done with it then.

use crate::job::bytes;
use crate::job::question::JobQuestion;
use crate::job::question::Written;
use crate::job::PLACES;
use crate::list::Answer;
use crate::list::Case;
use crate::list::Function;
use crate::list::List;
use crate::list::Question;
use oracle::paper;
use oracle::paper::Job;
use oracle::paper::DONE;
use shared::desk::Role;
use shared::orders::finishes;
use shared::orders::Task;

impl Case for JobQuestion {
    fn put(&self, list: &mut List) -> Result<(), String> {
        self.frame.put(list)?;
        let admitted = self.handed(Function::Admit, vec![], &self.lent())?;
        list.put(admitted, Answer::of(self.refusal()?));
        match self.task {
            Task::Steps => self.put_steps(list),
            Task::BothWays => self.put_both_ways(list),
            Task::Every | Task::Drawn { .. } => self.put_orders(list),
        }
    }
}

impl JobQuestion {
    /// A question with all that a batch is handed, and what it writes as it stands then.
    fn handed(
        &self,
        function: Function,
        numbers: Vec<u32>,
        written: &Written,
    ) -> Result<Question, String> {
        let jobs = self.jobs.iter().flat_map(bytes::lent);
        Ok(Question::on(function, &self.record()?, numbers)
            .lending(Role::PRESENT, self.present)
            .lending(Role::JOBS, jobs.collect::<Vec<u8>>())
            .lending_fields(self.fields())
            .lending(Role::RECORDS, self.records())
            .lending(Role::PROJECTION, written.projection.as_slice())
            .lending(Role::SAVED, written.saved.as_slice()))
    }

    /// What a step of each job answers, and one that names none. The Rust has no steps, so that what
    /// they change isn't told.
    fn put_steps(&self, list: &mut List) -> Result<(), String> {
        let answers = self.ask(|handed| {
            let answer = |k| paper::step_answer(handed, &self.jobs, k).into();
            (0..=PLACES).map(answer).collect()
        })?;
        let numbers = [0].into_iter().chain(0..=PLACES as u32).collect();
        let answer = Answer {
            numbers: answers,
            after: Vec::new(),
        };
        list.put(self.handed(Function::Steps, numbers, &self.lent())?, answer);
        Ok(())
    }

    /// Each job to its end and a step further, from the first to the last and the other way round.
    fn put_both_ways(&self, list: &mut List) -> Result<(), String> {
        let counts = self.counts()?;
        let forwards: Vec<usize> = (0..self.jobs.len()).collect();
        let backwards: Vec<usize> = forwards.iter().rev().copied().collect();
        for order in [forwards, backwards] {
            let steps = |&k: &usize| vec![k as u32; counts[k] as usize + 1];
            let numbers = [1].into_iter().chain(order.iter().flat_map(steps));
            let question = self.handed(Function::Steps, numbers.collect(), &self.lent())?;
            let counted = |&k: &usize| [vec![0; counts[k] as usize], vec![DONE.into()]].concat();
            let left = self.run(order.iter().map(|&k| &self.jobs[k]))?;
            let answer = Answer {
                numbers: order.iter().flat_map(counted).collect(),
                after: Vec::new(),
            };
            let answer = answer
                .leaving(Role::JOBS, self.finished(&counts))
                .leaving(Role::PROJECTION, left.projection)
                .leaving(Role::SAVED, left.saved);
            list.put(question, answer);
        }
        Ok(())
    }

    /// The jobs' bytes with all steps done.
    fn finished(&self, counts: &[u32]) -> Vec<u8> {
        let finished = |(job, &done): (&Job, &u32)| bytes::lent(&Job { done, ..*job });
        self.jobs.iter().zip(counts).flat_map(finished).collect()
    }

    /// Each job run whole, in list order; then the orders, which leave the same, and how many lists of them
    /// finish every job.
    fn put_orders(&self, list: &mut List) -> Result<(), String> {
        let mut left = self.lent();
        for at in 0..self.jobs.len() {
            let after = self.run(&self.jobs[..=at])?;
            self.put_whole(list, at, &left, &after)?;
            left = after;
        }
        let counts = self.counts()?;
        let lists = self.task.lists();
        let finishing = lists.iter().filter(|list| finishes(list, &counts)).count();
        let [seed, drawn] = self.task.numbers();
        let numbers = vec![seed, drawn, self.jobs.len() as u32, finishing as u32];
        list.put_unanswered(self.handed(Function::Orders, numbers, &left)?);
        Ok(())
    }

    fn put_whole(
        &self,
        list: &mut List,
        at: usize,
        before: &Written,
        after: &Written,
    ) -> Result<(), String> {
        let job = &self.jobs[at];
        let (function, numbers, role, bytes) = match job.kind {
            0 => {
                let numbers = job.window.numbers().to_vec();
                (
                    Function::LoadTmvs,
                    numbers,
                    Role::PROJECTION,
                    &after.projection,
                )
            }
            _ => {
                let numbers = job.place().numbers().to_vec();
                (Function::SaveTmvs, numbers, Role::SAVED, &after.saved)
            }
        };
        let answer = Answer::of(0).leaving(role, bytes.as_slice());
        list.put(self.handed(function, numbers, before)?, answer);
        Ok(())
    }
}
