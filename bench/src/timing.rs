//! Runs of several things in turn: medians, and the ratios of the first to each other with their spread.

use std::time::{Duration, Instant};

/// Does a thing so many times, and gives the seconds of each.
pub type Thing<'a> = Box<dyn FnMut(u32) -> f64 + 'a>;

pub fn plain<'a>(mut run: impl FnMut() + 'a) -> Thing<'a> {
    Box::new(move |times| {
        let begun = Instant::now();
        for _ in 0..times {
            run();
        }
        begun.elapsed().as_secs_f64() / f64::from(times)
    })
}

/// What `ready` makes is made before the clock runs.
pub fn after<'a, T>(mut ready: impl FnMut() -> T + 'a, mut run: impl FnMut(T) + 'a) -> Thing<'a> {
    Box::new(move |times| {
        let made: Vec<T> = (0..times).map(|_| ready()).collect();
        let begun = Instant::now();
        for one in made {
            run(one);
        }
        begun.elapsed().as_secs_f64() / f64::from(times)
    })
}

fn at(sorted: &[f64], part: f64) -> f64 {
    sorted[((sorted.len() - 1) as f64 * part).round() as usize]
}

fn sorted(mut list: Vec<f64>) -> Vec<f64> {
    list.sort_by(f64::total_cmp);
    list
}

pub struct Timed {
    /// The median of each, in seconds.
    pub medians: Vec<f64>,
    /// First to each other one: the ratio of the medians, and the quartiles of the ratios of neighbouring runs.
    pub ratios: Vec<(f64, f64, f64)>,
    pub runs: usize,
}

/// Each is warmed up, then all run in turn until the time is used: at least nine times each, and a run of at least 50 µs.
pub fn timed(seconds: f64, mut things: Vec<Thing>) -> Timed {
    let mut times = Vec::new();
    for thing in things.iter_mut() {
        thing(1);
        let once = thing(1).max(1e-9);
        times.push((50e-6 / once).ceil().clamp(1.0, 1e4) as u32);
    }
    for (i, thing) in things.iter_mut().enumerate() {
        thing(times[i]);
    }
    let mut lists: Vec<Vec<f64>> = vec![Vec::new(); things.len()];
    let begun = Instant::now();
    while lists[0].len() < 9 || (begun.elapsed() < Duration::from_secs_f64(seconds) && lists[0].len() < 2001) {
        for (i, thing) in things.iter_mut().enumerate() {
            lists[i].push(thing(times[i]));
        }
    }
    figures(lists)
}

/// Things that take seconds: all in turn, so many times, and once before.
pub fn timed_few(runs: usize, mut things: Vec<Thing>) -> Timed {
    let mut turn = || things.iter_mut().map(|thing| thing(1)).collect::<Vec<f64>>();
    turn();
    let turns: Vec<Vec<f64>> = (0..runs).map(|_| turn()).collect();
    figures((0..turns[0].len()).map(|i| turns.iter().map(|turn| turn[i]).collect()).collect())
}

fn figures(lists: Vec<Vec<f64>>) -> Timed {
    let runs = lists[0].len();
    let medians: Vec<f64> = lists.iter().map(|list| at(&sorted(list.clone()), 0.5)).collect();
    let ratios = (1..lists.len())
        .map(|i| {
            let each = sorted(lists[0].iter().zip(&lists[i]).map(|(a, b)| a / b).collect());
            (medians[0] / medians[i], at(&each, 0.25), at(&each, 0.75))
        })
        .collect();
    Timed { medians, ratios, runs }
}

pub fn shown(ratio: (f64, f64, f64)) -> String {
    format!("{:5.2} ({:.2}-{:.2})", ratio.0, ratio.1, ratio.2)
}
