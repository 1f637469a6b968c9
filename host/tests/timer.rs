//! The closed form of a span against the single clocks of the paper.
#![deny(warnings)]

use mfp_host::reference::timer::Timer;
use mfp_host::reference::Device;
use mfp_host::rng::Rng;

/// `n` single clocks; the timeouts they made.
fn walk(timer: &mut Timer, n: u32, active: bool) -> u32 {
    (0..n).filter(|_| timer.clock(active)).count() as u32
}

fn agree(timer: Timer, n: u32, active: bool) {
    let (mut walked, mut leapt) = (timer, timer);
    let expected = walk(&mut walked, n, active);
    let got = leapt.span(n, active);
    assert_eq!((leapt, got), (walked, expected), "{timer:?}, {n} clocks");
}

/// A timer that keeps the image rule, with small values more often than not.
fn any_timer(rng: &mut Rng) -> Timer {
    let value = |rng: &mut Rng| {
        if rng.chance(1, 2) {
            rng.below(4) as u8
        } else {
            rng.byte()
        }
    };
    let mut timer = Timer {
        mode: rng.below(16) as u8,
        data: value(rng),
        counter: value(rng),
        position: 0,
        output: rng.chance(1, 2),
    };
    if let Some(divisor) = timer.divisor() {
        timer.position = rng.below(divisor.into()) as u8;
    }
    timer
}

#[test]
fn short_spans_of_every_mode() {
    let values = [0, 1, 2, 3, 255];
    for mode in 0..16 {
        for (data, counter) in values.iter().flat_map(|&d| values.map(|c| (d, c))) {
            let timer = Timer {
                mode,
                data,
                counter,
                ..Timer::default()
            };
            (0..450).for_each(|n| agree(timer, n, true));
            agree(timer, 450, false);
        }
    }
}

#[test]
fn random_timers_over_random_spans() {
    let mut rng = Rng::new(1);
    for _ in 0..3000 {
        let timer = any_timer(&mut rng);
        let most = rng.pick(&[10, 1000, 60_000]);
        let n = rng.below(most) as u32;
        agree(timer, n, rng.chance(3, 4));
    }
}

#[test]
fn the_longest_period_and_its_neighbours() {
    let timer = Timer {
        mode: 7,
        ..Timer::default()
    };
    (51_199..=51_201).for_each(|n| agree(timer, n, false));
    (102_399..=102_401).for_each(|n| agree(timer, n, false));
}

/// Spans too long to walk: any cut of the span leaves the same timer.
#[test]
fn long_spans_may_be_cut_anywhere() {
    let mut rng = Rng::new(2);
    for _ in 0..20_000 {
        let timer = any_timer(&mut rng);
        let n = rng.word() as u32;
        let first = rng.below(u64::from(n) + 1) as u32;
        let (mut whole, mut cut) = (timer, timer);
        let at_once = whole.span(n, true);
        let in_two = cut.span(first, true) + cut.span(n - first, true);
        assert_eq!((cut, in_two), (whole, at_once), "{timer:?}, {first} of {n}");
    }
}

#[test]
fn the_longest_span_of_the_paper() {
    let mut timer = Timer {
        mode: 1,
        data: 1,
        counter: 1,
        ..Timer::default()
    };
    assert_eq!(timer.span(u32::MAX, false), 1_073_741_823);
    assert_eq!((timer.position, timer.output), (3, true));
}

/// The device's span is its single clocks, pending bits included.
#[test]
fn spans_of_the_device() {
    let mut rng = Rng::new(3);
    for _ in 0..500 {
        let mut walked = Device::fresh();
        walked.timers = std::array::from_fn(|_| any_timer(&mut rng));
        walked.timers[2].mode %= 8;
        walked.timers[3].mode %= 8;
        walked.timers[2..].iter_mut().for_each(|t| t.position = 0);
        walked.enabled = std::array::from_fn(|_| rng.chance(1, 2));
        walked.input = [rng.chance(1, 2), rng.chance(1, 2)];
        let mut leapt = walked.clone();
        let (mut expected, mut got) = ([0; 4], [0; 4]);
        let n = rng.below(3000) as u32;
        (0..n).for_each(|_| walked.clock(&mut expected));
        leapt.span(n, &mut got);
        assert_eq!((&leapt, got), (&walked, expected), "{n} clocks");
    }
}
