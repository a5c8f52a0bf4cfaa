use differential::emulated;
use differential::random::Random;
use judge::both::{Both, Statuses};
use judge::call::Call;
use judge::draws;
use std::{env, thread};

/// Calls of the gate's run; STRANVEK_CALLS names another number, as 10000000, which is not divided.
const CALLS: u64 = 1_000_000;

/// Calls between two fresh rooms.
const RUN: u64 = 400;

struct Met {
    statuses: Statuses,
    conflicts: u64,
}

fn compare(seed: u64, calls: u64) -> Met {
    let mut random = Random::seeded(seed);
    let mut met = Met { statuses: Statuses::default(), conflicts: 0 };
    let mut both = Both::fresh(0, 0);
    for n in 0..calls {
        if n % RUN == 0 {
            let last = draws::sequence(&mut random, 7);
            both = Both::fresh(last, random.byte());
        }
        let last = both.judge.state.last;
        let call = draws::call(&mut random, last);
        let (answer, _) = both.call(&call);
        met.statuses[usize::from(answer.status)] += 1;
        let conflict = matches!(call, Call::Check(_)) && answer.value == 1;
        met.conflicts += u64::from(conflict);
    }
    met
}

#[test]
fn random_runs() {
    let calls = match env::var("STRANVEK_CALLS") {
        Ok(calls) => calls.parse().expect("STRANVEK_CALLS is a number of calls"),
        Err(_) => emulated::draws(CALLS),
    };
    let half = calls / 2;
    thread::scope(|scope| {
        let other = scope.spawn(move || compare(1, half));
        for met in [compare(2, calls - half), other.join().expect("no difference")] {
            println!("statuses 0 to 7: {:?}, conflicts {}", met.statuses, met.conflicts);
            // Without many of each the order of the refusals and the verdicts would be untried; 6 has its own runs.
            assert!(met.statuses[..6].iter().all(|&n| n > calls / 1_000));
            assert!(met.conflicts > calls / 100);
            assert_eq!(met.statuses[7], 0, "a room made fresh and written only by the calls");
        }
    });
}
