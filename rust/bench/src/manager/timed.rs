//! A plan of what is timed, made a case: managers of each side, filled, and their turns.

use super::scenes::{Ready, Scene, Shape};
use super::{sides, Account, Manager};
use crate::turns::{asking, Case, Turn};
use differential::random::Random;
use std::time::{Duration, Instant};

/// Managers that one pass asks, each filled with keys of its own.
const MANAGERS: usize = 8;

#[derive(Clone, Copy)]
pub struct Plan {
    pub call: &'static str,
    pub what: &'static str,
    pub(super) shape: Shape,
    pub(super) ready: Ready,
    pub(super) timed: Timed,
}

/// What stands under the clock.
#[derive(Clone, Copy)]
pub(super) enum Timed {
    /// A call that changes nothing.
    Asks(fn(&mut dyn Manager) -> u64),
    /// Calls after which the manager is put back.
    Changes(fn(&mut dyn Manager, &Scene) -> u64),
}

impl Plan {
    pub fn case(&self, random: &mut Random) -> Case {
        let scenes: Vec<Scene> = (0..MANAGERS).map(|_| Scene::drawn(random, self.shape)).collect();
        let scenes: &'static [Scene] = scenes.leak();
        let turns = sides().into_iter().map(|fresh| self.turn(scenes, fresh));
        Case::new(self.call, self.what, turns.collect())
    }

    /// The form of the keys, and how many others are active.
    pub fn form(&self) -> (String, usize) {
        let (shared, own) = (self.shape.keys.shared, self.shape.keys.own);
        let keys = match shared {
            0 => format!("{} random bytes", own),
            _ => format!("{} bytes, {} of them shared", shared + own, shared),
        };
        (keys, self.shape.others)
    }

    fn turn(&self, scenes: &'static [Scene], fresh: fn() -> Box<dyn Manager>) -> Turn {
        let filled = |scene: &Scene| {
            let mut manager = fresh();
            scene.fill(&mut *manager, self.ready);
            manager.keep();
            manager
        };
        let managers = scenes.iter().map(filled).collect();
        match self.timed {
            Timed::Asks(call) => asking_each(managers, call),
            Timed::Changes(calls) => changing_each(managers, scenes, calls),
        }
    }
}

fn asking_each(mut managers: Vec<Box<dyn Manager>>, call: fn(&mut dyn Manager) -> u64) -> Turn {
    let places: Vec<usize> = (0..managers.len()).collect();
    asking(places.leak(), move |&at| call(&mut *managers[at]))
}

/// Each manager is changed once under the clock, and then put back beside it.
fn changing_each(
    mut managers: Vec<Box<dyn Manager>>,
    scenes: &'static [Scene],
    calls: fn(&mut dyn Manager, &Scene) -> u64,
) -> Turn {
    Box::new(move |passes| {
        let mut took = Duration::ZERO;
        let mut first = None;
        for _ in 0..passes {
            let start = Instant::now();
            let each = managers.iter_mut().zip(scenes);
            let answered = each.map(|(manager, scene)| calls(&mut **manager, scene)).sum();
            took += start.elapsed();
            let digest = managers.iter_mut().fold(answered, |sum, each| settled(sum, &mut **each));
            assert_eq!(digest, *first.get_or_insert(digest), "a repeated pass answers the same");
        }
        (took, first.expect("a turn has a pass"))
    })
}

/// Adds what the calls left to a digest, and puts the manager back.
fn settled(digest: u64, manager: &mut dyn Manager) -> u64 {
    let Account { marks, entries, last } = manager.account();
    manager.put_back();
    let joined = |sum: u64, part: u64| sum.wrapping_mul(31).wrapping_add(part);
    [marks, entries, last].into_iter().fold(digest, joined)
}
