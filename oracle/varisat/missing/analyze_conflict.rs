//! Stand-in (not supplied): conflict analysis belongs to the search.

#[derive(Default)]
pub struct AnalyzeConflict;

impl AnalyzeConflict {
    pub fn set_var_count(&mut self, _count: usize) {}
}
