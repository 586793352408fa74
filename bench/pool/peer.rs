//! peer KIND JOBS TURNS WORKERS: the pool of `rank_pool` with a deque under a lock, in std threads.
//!
//! A worker takes the job at the front, gives it a turn, and puts it at the back; where the deque is empty and jobs are
//! still on, it yields. It prints what `poolrate` does.

use std::collections::VecDeque;
use std::hint::black_box;
use std::sync::atomic::{AtomicU64, AtomicUsize, Ordering::SeqCst};
use std::sync::Mutex;
use std::thread;
use std::time::Instant;

#[derive(Clone, Copy)]
enum Kind {
    Empty,
    Work,
    Halo,
    Spin,
}

struct Job {
    kind: Kind,
    place: u64,
    left: u64,
    word: u64,
}

fn churn(mut x: u64) -> u64 {
    for _ in 0..1600 {
        x ^= x << 13;
        x ^= x >> 7;
        x ^= x << 17;
    }
    black_box(x)
}

// How many steps each job has made.
struct Steps(Vec<AtomicU64>);

impl Steps {
    fn at(&self, place: u64) -> u64 {
        self.0.get(place as usize).map_or(u64::MAX, |steps| steps.load(SeqCst))
    }

    fn may_step(&self, place: u64) -> bool {
        let made = self.at(place);
        self.at(place.wrapping_sub(1)) >= made && self.at(place.wrapping_add(1)) >= made
    }
}

impl Job {
    fn moves(&mut self, steps: &Steps) -> bool {
        match self.kind {
            Kind::Empty => true,
            Kind::Work => {
                self.word = churn(self.word);
                true
            }
            Kind::Halo | Kind::Spin => {
                let may = steps.may_step(self.place);
                if may {
                    self.word = churn(self.word);
                    steps.0[self.place as usize].fetch_add(1, SeqCst);
                } else if matches!(self.kind, Kind::Halo) {
                    thread::yield_now();
                }
                may
            }
        }
    }

    // Whether the job is over.
    fn turn(&mut self, steps: &Steps) -> bool {
        if self.left > 0 && self.moves(steps) {
            self.left -= 1;
        }
        self.left == 0
    }
}

fn work(queue: &Mutex<VecDeque<Job>>, left: &AtomicUsize, steps: &Steps) {
    while left.load(SeqCst) > 0 {
        let job = queue.lock().unwrap().pop_front();
        match job {
            Some(mut job) => {
                if job.turn(steps) {
                    left.fetch_sub(1, SeqCst);
                } else {
                    queue.lock().unwrap().push_back(job);
                }
            }
            None => thread::yield_now(),
        }
    }
}

fn main() {
    let words: Vec<String> = std::env::args().skip(1).collect();
    let kind = match words[0].as_str() {
        "work" | "long" => Kind::Work,
        "halo" => Kind::Halo,
        "spin" => Kind::Spin,
        _ => Kind::Empty,
    };
    let (jobs, turns): (u64, u64) = (words[1].parse().unwrap(), words[2].parse().unwrap());
    let workers: u64 = words[3].parse().unwrap();
    let list: VecDeque<Job> = (0..jobs)
        .map(|place| {
            let left = if words[0] == "long" && place > 0 { turns / 100 } else { turns };
            Job { kind, place, left, word: place + 1 }
        })
        .collect();
    let start = Instant::now();
    let (queue, left) = (Mutex::new(list), AtomicUsize::new(jobs as usize));
    let steps = Steps((0..jobs).map(|_| AtomicU64::new(0)).collect());
    thread::scope(|scope| {
        for _ in 0..workers.min(jobs) {
            scope.spawn(|| work(&queue, &left, &steps));
        }
    });
    eprintln!("{}", start.elapsed().as_nanos());
    println!("{} jobs over", jobs);
}
