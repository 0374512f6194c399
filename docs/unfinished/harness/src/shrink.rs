//! A failing job made smaller: days, feeds, windows and entries are removed as long as it still fails.
use crate::compare;
use crate::entries::PlanMake;
use crate::job::{Body, Job};

pub fn fails(job: &Job) -> bool {
    compare::check(&job.bytes()).is_err()
}

/// The job with as much removed as can be, one thing at a time.
pub fn shrink(mut job: Job) -> Job {
    loop {
        let smaller = candidates(&job).find(fails);
        match smaller {
            Some(found) => job = found,
            None => return job,
        }
    }
}

/// Every job with one part removed, large parts first.
fn candidates(job: &Job) -> impl Iterator<Item = Job> + '_ {
    let days = (0..job.days.len()).map(|day| {
        let mut smaller = job.clone();
        smaller.days.remove(day);
        smaller
    });
    let feeds = places(job).map(|(day, feed)| {
        let mut smaller = job.clone();
        smaller.days[day].feeds.remove(feed);
        smaller
    });
    let plain = places(job).filter_map(|(day, feed)| {
        let mut smaller = job.clone();
        let body = &mut smaller.days[day].feeds[feed].body;
        match body {
            Body::Bytes(_) => *body = Body::Entries(body.entries()),
            Body::Entries(_) => return None,
        }
        Some(smaller)
    });
    let runs = places(job).flat_map(|(day, feed)| runs(job, day, feed));
    let windows = (0..window_count(job)).filter_map(|window| {
        let mut smaller = job.clone();
        if let PlanMake::Announced { windows } = &mut smaller.plan {
            windows.remove(window);
        }
        Some(smaller)
    });
    days.chain(feeds).chain(plain).chain(runs).chain(windows)
}

fn places(job: &Job) -> impl Iterator<Item = (usize, usize)> + '_ {
    let days = job.days.iter().enumerate();
    days.flat_map(|(day, of)| (0..of.feeds.len()).map(move |feed| (day, feed)))
}

fn window_count(job: &Job) -> usize {
    match &job.plan {
        PlanMake::Announced { windows } => windows.len(),
        PlanMake::Fixed { .. } => 0,
    }
}

/// The job without a run of entries of one feed, from half of them down to one.
fn runs(job: &Job, day: usize, feed: usize) -> Vec<Job> {
    let Body::Entries(entries) = &job.days[day].feeds[feed].body else {
        return Vec::new();
    };
    let mut smaller = Vec::new();
    let mut size = entries.len() / 2;
    while size > 0 {
        for from in (0..entries.len()).step_by(size) {
            let mut left = entries.clone();
            left.drain(from..(from + size).min(entries.len()));
            let mut one = job.clone();
            one.days[day].feeds[feed].body = Body::Entries(left);
            smaller.push(one);
        }
        size /= 2;
    }
    if entries.len() == 1 {
        let mut one = job.clone();
        one.days[day].feeds[feed].body = Body::Entries(Vec::new());
        smaller.push(one);
    }
    smaller
}
