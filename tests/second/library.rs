//! The functions of the static library of crate `capi`; include/mondupil.h says what they do.
extern "C" {
    pub fn mondupil_run(
        machine: u32, table: *const u32, table_len: usize, args: *const u64, args_len: usize,
        fuel: u64, period: u64, tau: u64,
        workspace: *mut u64, workspace_len: usize, answer: *mut u64, answer_len: usize,
    ) -> u32;
    pub fn mondupil_run_graph(
        machine: u32, table: *const u32, table_len: usize, args: *const u64, args_len: usize,
        fuel: u64, period: u64, tau: u64,
        workspace: *mut u64, workspace_len: usize, graph: *mut u32, graph_len: usize, answer: *mut u64, answer_len: usize,
    ) -> u32;
}
