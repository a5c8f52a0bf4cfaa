//! The table of the manager's cases: each over 96 entries, for each form of keys, with one other active and with 31.

use super::scenes::{KeyForm, Ready, Scene, Shape};
use super::timed::{Plan, Timed};
use super::{Manager, MEASURED};

const SHORT: KeyForm = KeyForm { shared: 0, own: 16 };
const SHARED: KeyForm = KeyForm { shared: 32, own: 8 };

/// The one keeps the entries, which would be gone with nobody active.
const ALONE: usize = 1;
const FULL: usize = 31;

const CHECK: &str = "`check_has_conflict`";
const WRITES: &str = "`track_write_keys`";
const RANGE: &str = "`track_read_range`";
const WHOLE: &str = "begin, tracks, ranges, check, commit";
const FROM_TRACKS: &str = "tracks, ranges, check, commit";
const MINIMUM: &str = "`min_active_seq`";

pub const USUAL: Shape = Shape {
    keys: SHORT,
    others: ALONE,
    entries: 96,
    keys_an_entry: 8,
    above: 96,
    conflicts: false,
    writes: 8,
    reads: 8,
    ranges: 4,
};

/// Above no entry, with nothing to track.
const LATE: Shape = Shape { above: 0, writes: 0, reads: 0, ranges: 0, ..USUAL };

/// Each case for each form of keys and number of others.
pub fn plans() -> Vec<Plan> {
    let forms = [(SHORT, ALONE), (SHORT, FULL), (SHARED, ALONE), (SHARED, FULL)];
    let formed = |plan: Plan, (keys, others)| {
        let shape = Shape { keys, others, ..plan.shape };
        Plan { shape, ..plan }
    };
    cases().into_iter().flat_map(|plan| forms.map(|form| formed(plan, form))).collect()
}

#[rustfmt::skip]
fn cases() -> Vec<Plan> {
    vec![
        check("all entries above the start", USUAL),
        check("half of them above the start", Shape { above: 48, ..USUAL }),
        check("none above the start", Shape { above: 0, ..USUAL }),
        check("all above, the first in conflict", Shape { conflicts: true, ..USUAL }),
        check("all above, one write and nothing else", Shape { above: 96, writes: 1, ..LATE }),
        changes(WRITES, "1 key", Shape { writes: 1, ..LATE }, Ready::Begun, track_writes),
        changes(WRITES, "8 keys", Shape { writes: 8, ..LATE }, Ready::Begun, track_writes),
        changes(WRITES, "32 keys", Shape { writes: 32, ..LATE }, Ready::Begun, track_writes),
        changes(RANGE, "1 range", Shape { ranges: 1, ..LATE }, Ready::Begun, track_ranges),
        changes(WHOLE, "begun above all entries", Shape { above: 0, ..USUAL }, Ready::Absent, whole),
        changes(FROM_TRACKS, "half of them above the start", Shape { above: 48, ..USUAL }, Ready::Begun, from_tracks),
        Plan { timed: Timed::Asks(min_active_seq), call: MINIMUM, ..check("as for the first check", USUAL) },
    ]
}

pub fn check(what: &'static str, shape: Shape) -> Plan {
    let timed = Timed::Asks(has_conflict);
    Plan { call: CHECK, what, shape, ready: Ready::Tracked, timed }
}

fn changes(
    call: &'static str,
    what: &'static str,
    shape: Shape,
    ready: Ready,
    calls: fn(&mut dyn Manager, &Scene) -> u64,
) -> Plan {
    Plan { call, what, shape, ready, timed: Timed::Changes(calls) }
}

/// Where the plan stands that does little but the port's walk, on a room like another plan's.
pub fn walk_of(plan: &Plan, plans: &[Plan]) -> usize {
    let (keys, others) = (plan.shape.keys, plan.shape.others);
    let alike = |shape: &Shape| shape.keys == keys && shape.others == others;
    let found = plans.iter().position(|walk| walk.call == MINIMUM && alike(&walk.shape));
    found.expect("every form has its minimum")
}

fn has_conflict(manager: &mut dyn Manager) -> u64 {
    manager.check_has_conflict(&MEASURED).into()
}

fn min_active_seq(manager: &mut dyn Manager) -> u64 {
    manager.min_active_seq()
}

fn track_writes(manager: &mut dyn Manager, scene: &Scene) -> u64 {
    scene.track_writes(manager);
    0
}

fn track_ranges(manager: &mut dyn Manager, scene: &Scene) -> u64 {
    scene.track_ranges(manager);
    0
}

fn whole(manager: &mut dyn Manager, scene: &Scene) -> u64 {
    manager.new_transaction(&MEASURED) + from_tracks(manager, scene)
}

fn from_tracks(manager: &mut dyn Manager, scene: &Scene) -> u64 {
    scene.track(manager);
    let conflict = has_conflict(manager);
    scene.commit(manager);
    conflict
}
