//! What the four files use from files that are not to be had.

use uuid::Uuid;

/// Makes the id of the next transaction.
pub trait IdGenerator {
    fn gen_uuid(&mut self) -> Uuid;
}

impl IdGenerator for Uuid {
    fn gen_uuid(&mut self) -> Uuid {
        *self
    }
}

/// Hands out the id that the test chose, where slatedb draws one.
pub struct DbRand {
    chosen: parking_lot::Mutex<Uuid>,
}

impl DbRand {
    pub fn new(chosen: Uuid) -> Self {
        DbRand { chosen: parking_lot::Mutex::new(chosen) }
    }

    pub fn choose(&self, id: Uuid) {
        *self.chosen.lock() = id;
    }

    pub fn rng(&self) -> Uuid {
        *self.chosen.lock()
    }
}

/// Hears of durable sequences, which the manager never reports.
#[derive(Clone, Debug, Default)]
pub struct DbStatusManager;

impl DbStatusManager {
    pub fn report_durable_seq(&self, _seq: u64) {}
}
