//! Stand-in (not supplied): the two settings that the supplied files read.

pub struct SolverConfig {
    pub vsids_decay: f32,
    pub clause_activity_decay: f32,
}

impl Default for SolverConfig {
    fn default() -> SolverConfig {
        SolverConfig { vsids_decay: 0.95, clause_activity_decay: 0.999 }
    }
}

pub struct SolverConfigUpdate;

impl SolverConfigUpdate {
    pub fn apply(&self, _config: &mut SolverConfig) -> Result<(), anyhow::Error> {
        Ok(())
    }
}
