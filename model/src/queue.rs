//! The queue of jobs (document 02, request L9): "One queue holds up to 32 jobs,
//! first in first out, and space is used again after each removal."

use crate::clock::VectorClock;
use crate::fault::Fault;
use std::collections::VecDeque;

/// "up to 32 jobs"
pub const MOST_JOBS: usize = 32;

/// "the value with the card's clock"
#[derive(Clone, Debug, PartialEq, Eq)]
pub struct Job {
    pub value: u32,
    pub clock: VectorClock,
}

#[derive(Clone, Default)]
pub struct Queue {
    /// The jobs that wait, the oldest first.
    pub jobs: VecDeque<Job>,
    /// How many were removed (only for a fault).
    removed: usize,
}

impl Queue {
    /// "19, enqueue with 32 jobs waiting"
    pub fn is_full(&self, fault: Option<Fault>) -> bool {
        match fault {
            Some(Fault::FullAt31) => self.jobs.len() >= MOST_JOBS - 1,
            Some(Fault::FullAt33) => self.jobs.len() > MOST_JOBS,
            Some(Fault::FullForGood) => self.jobs.len() + self.removed >= MOST_JOBS,
            _ => self.jobs.len() >= MOST_JOBS,
        }
    }

    /// "20, dequeue with none"
    pub fn is_empty(&self) -> bool {
        self.jobs.is_empty()
    }

    pub fn add(&mut self, job: Job) {
        self.jobs.push_back(job);
    }

    /// "removes the oldest job", where there is one
    pub fn remove(&mut self, fault: Option<Fault>) -> Option<Job> {
        let job = match fault {
            Some(Fault::JobNewest) => self.jobs.pop_back(),
            _ => self.jobs.pop_front(),
        };
        self.removed += usize::from(job.is_some());
        job
    }

    /// "A collecting round sets the clocks of queued jobs to zeros."
    pub fn zero_clocks(&mut self) {
        for job in &mut self.jobs {
            job.clock = VectorClock::zeros();
        }
    }
}

// The same with a fault, for `model run --fault NAME` alone.
impl Queue {
    /// What the jobs that wait tell together.
    pub fn all_clocks(&self) -> VectorClock {
        let mut all = VectorClock::zeros();
        self.jobs.iter().for_each(|job| all.join(&job.clock));
        all
    }

    /// Each job that waits tells this too.
    pub fn hear(&mut self, clock: &VectorClock) {
        self.jobs.iter_mut().for_each(|job| job.clock.join(clock));
    }

    /// What a collecting round leaves.
    pub fn collect_faulty(&mut self, fault: Fault) {
        match fault {
            Fault::JobClocksKept => {}
            Fault::JobsCollected => self.jobs.clear(),
            // The others show elsewhere.
            _ => self.zero_clocks(),
        }
    }
}
