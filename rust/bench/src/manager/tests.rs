//! The cases are what they say, on each side.

use super::scenes::{Ready, Scene};
use super::{cases, sides, MEASURED};
use differential::random::Random;

#[test]
fn entries_and_verdicts() {
    let mut random = Random::seeded(1);
    let (mut managers, mut conflicts) = (0, 0);
    for plan in cases::plans() {
        let scene = Scene::drawn(&mut random, plan.shape);
        for fresh in sides() {
            let mut manager = fresh();
            scene.fill(&mut *manager, plan.ready);
            assert_eq!(manager.account().entries, plan.shape.entries as u64);
            if plan.ready == Ready::Tracked {
                let conflict = manager.check_has_conflict(&MEASURED);
                assert_eq!(conflict, plan.shape.conflicts, "{}", plan.what);
                conflicts += u64::from(conflict);
            }
            managers += 1;
        }
    }
    // Twelve cases for four forms on three sides, one of them in conflict.
    assert_eq!((managers, conflicts), (12 * 4 * 3, 4 * 3));
}

#[test]
fn what_is_changed_is_put_back() {
    let mut random = Random::seeded(2);
    for ready in [Ready::Absent, Ready::Begun] {
        let scene = Scene::drawn(&mut random, cases::USUAL);
        for fresh in sides() {
            let mut manager = fresh();
            scene.fill(&mut *manager, ready);
            manager.keep();
            for _ in 0..3 {
                if ready == Ready::Absent {
                    assert_eq!(manager.new_transaction(&MEASURED), 96);
                }
                assert_eq!(manager.account().marks, 0);
                scene.track(&mut *manager);
                assert_eq!(manager.account().marks, 20);
                scene.commit(&mut *manager);
                let account = manager.account();
                assert_eq!((account.marks, account.entries, account.last), (0, 97, 96));
                manager.put_back();
            }
        }
    }
}
