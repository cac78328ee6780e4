//! Calls of `include/bpf_host.h`, as they stand there.

use std::ffi::c_void;

/// The version of the header that these calls are of: BPF_HOST_VERSION.
const VERSION: u32 = 5;

// The size that the header gives.
const _: () = assert!(std::mem::size_of::<Object>() == 67180);

/// Panics if the library that was linked isn't that of this crate, since it would take other arguments.
pub fn check_version() {
    // SAFETY: the call takes nothing, and is in each version.
    let linked = unsafe { bpf_host_version() };
    assert!(
        linked == VERSION,
        "the linked library has version {linked}, and this crate needs version {VERSION}"
    );
}

#[repr(C)]
pub struct Handle {
    pub at: *mut c_void,
    pub is_open: bool,
}

#[repr(C)]
#[derive(Clone, Copy)]
pub struct Options {
    pub pages_to_scan: u32,
    pub run: u32,
    pub use_zero_pages: u32,
    pub max_page_sharing: u32,
}

#[repr(C)]
#[derive(Clone, Copy, Default)]
pub struct Refused {
    pub slot: u32,
    pub need: u32,
    pub have: u32,
}

#[repr(C)]
#[derive(Clone, Copy, Default)]
pub struct Run {
    pub ret: u64,
    pub steps: u32,
}

#[repr(C)]
#[derive(Clone, Copy, Default)]
pub struct Shape {
    pub value_size: u32,
    pub entries: u32,
}

#[repr(C)]
#[derive(Clone, Copy)]
pub struct ObjectMap {
    pub shape: Shape,
    pub first_len: u32,
    pub name: [u8; 64],
    pub first: [u8; 4096],
}

#[repr(C)]
pub struct Object {
    pub context_size: u32,
    pub text_len: u32,
    pub maps_len: u32,
    pub text: [u8; 32768],
    pub maps: [ObjectMap; 8],
    pub why: [u8; 1024],
}

#[repr(C)]
#[derive(Clone, Copy, Default)]
pub struct Counters {
    pub full_scans: u64,
    pub pages_shared: u32,
    pub pages_sharing: u32,
    pub pages_unshared: u32,
    pub pages_volatile: u32,
    pub ksm_zero_pages: u32,
    pub stable_node_chains: u32,
    pub stable_node_dups: u32,
    pub frames_free: u32,
}

extern "C" {
    pub fn bpf_host_version() -> u32;
    pub fn bpf_host_new(
        frames: u32,
        tenants: u32,
        options: *const Options,
        host: *mut Handle,
    ) -> u32;
    pub fn bpf_host_free(host: *mut Handle);
    pub fn bpf_host_create_map(
        host: *mut Handle,
        tenant: u32,
        value_size: u32,
        entries: u32,
        mergeable: bool,
        map: *mut u32,
        refused: *mut Refused,
    ) -> u32;
    pub fn bpf_host_drop_map(host: *mut Handle, tenant: u32, map: u32) -> u32;
    pub fn bpf_host_load(
        host: *mut Handle,
        tenant: u32,
        text: *const u8,
        text_len: usize,
        context_size: u32,
        program: *mut u32,
        refused: *mut Refused,
    ) -> u32;
    pub fn bpf_host_unload(host: *mut Handle, tenant: u32, program: u32) -> u32;
    pub fn bpf_host_run(
        host: *mut Handle,
        tenant: u32,
        program: u32,
        context: *const u8,
        context_len: usize,
        run: *mut Run,
        refused: *mut Refused,
    ) -> u32;
    pub fn bpf_host_run_many(
        host: *mut Handle,
        tenant: u32,
        program: u32,
        contexts: *const u8,
        contexts_len: usize,
        rets: *mut u64,
        rets_len: usize,
        made: *mut usize,
        refused: *mut Refused,
    ) -> u32;
    pub fn bpf_host_begin(
        host: *mut Handle,
        tenant: u32,
        program: u32,
        context: *const u8,
        context_len: usize,
        refused: *mut Refused,
    ) -> u32;
    pub fn bpf_host_step(
        host: *mut Handle,
        tenant: u32,
        steps: u64,
        ended: *mut bool,
        run: *mut Run,
    ) -> u32;
    pub fn bpf_host_shape(host: *mut Handle, tenant: u32, map: u32, shape: *mut Shape) -> u32;
    pub fn bpf_host_lookup(
        host: *mut Handle,
        tenant: u32,
        map: u32,
        key: u32,
        value: *mut u8,
        value_len: usize,
    ) -> u32;
    pub fn bpf_host_update(
        host: *mut Handle,
        tenant: u32,
        map: u32,
        key: u32,
        value: *const u8,
        value_len: usize,
        refused: *mut Refused,
    ) -> u32;
    pub fn bpf_host_visit(host: *mut Handle, visits: u32, after: *mut Counters) -> u32;
    pub fn bpf_host_set(host: *mut Handle, option: u32, value: u32) -> u32;
    pub fn bpf_host_unmerge(host: *mut Handle, refused: *mut Refused) -> u32;
    pub fn bpf_host_counters(host: *mut Handle, counters: *mut Counters) -> u32;
    pub fn bpf_host_verify(
        text: *const u8,
        text_len: usize,
        shapes: *const Shape,
        shapes_len: usize,
        context_size: u32,
        refused: *mut Refused,
    ) -> u32;
    pub fn bpf_host_lower(
        text: *const u8,
        text_len: usize,
        shapes: *const Shape,
        shapes_len: usize,
        context_size: u32,
        lowered: *mut u8,
        lowered_len: usize,
        written: *mut usize,
        refused: *mut Refused,
    ) -> u32;
    pub fn bpf_host_explain(
        text: *const u8,
        text_len: usize,
        shapes: *const Shape,
        shapes_len: usize,
        context_size: u32,
        explained: *mut u8,
        explained_len: usize,
        written: *mut usize,
    ) -> u32;
    pub fn bpf_host_read_object(
        file: *const u8,
        file_len: usize,
        name: *const u8,
        name_len: usize,
        context_size: u32,
        object: *mut Object,
        refused: *mut Refused,
    ) -> u32;
}
