//! The building functions, each behind a safe one of the same name.

mod c {
    crate::port::functions! {
        pub fn ohg_empty(out: *mut u8, out_len: usize) -> u64;
        pub fn ohg_discrete(
            labels: *const u8,
            labels_len: usize,
            out: *mut u8,
            out_len: usize,
        ) -> u64;
        pub fn ohg_identity(
            labels: *const u8,
            labels_len: usize,
            out: *mut u8,
            out_len: usize,
        ) -> u64;
        pub fn ohg_singleton(
            label: u32,
            source_labels: *const u8,
            source_labels_len: usize,
            target_labels: *const u8,
            target_labels_len: usize,
            out: *mut u8,
            out_len: usize,
        ) -> u64;
        pub fn ohg_new_node(
            src: *const u8,
            src_len: usize,
            label: u32,
            out: *mut u8,
            out_len: usize,
        ) -> u64;
        pub fn ohg_new_edge(
            src: *const u8,
            src_len: usize,
            label: u32,
            sources: *const u8,
            sources_len: usize,
            targets: *const u8,
            targets_len: usize,
            out: *mut u8,
            out_len: usize,
        ) -> u64;
        pub fn ohg_new_operation(
            src: *const u8,
            src_len: usize,
            label: u32,
            source_labels: *const u8,
            source_labels_len: usize,
            target_labels: *const u8,
            target_labels_len: usize,
            out: *mut u8,
            out_len: usize,
        ) -> u64;
        pub fn ohg_unify(
            src: *const u8,
            src_len: usize,
            v: u32,
            w: u32,
            out: *mut u8,
            out_len: usize,
        ) -> u64;
        pub fn ohg_add_edge_source(
            src: *const u8,
            src_len: usize,
            edge: u32,
            label: u32,
            out: *mut u8,
            out_len: usize,
        ) -> u64;
        pub fn ohg_add_edge_target(
            src: *const u8,
            src_len: usize,
            edge: u32,
            label: u32,
            out: *mut u8,
            out_len: usize,
        ) -> u64;
    }
}

// SAFETY, of all: each part is lent for the call, with its own length.

pub fn ohg_empty(out: &mut [u8]) -> u64 {
    unsafe { c::ohg_empty(out.as_mut_ptr(), out.len()) }
}

pub fn ohg_discrete(labels: &[u8], out: &mut [u8]) -> u64 {
    unsafe { c::ohg_discrete(labels.as_ptr(), labels.len(), out.as_mut_ptr(), out.len()) }
}

pub fn ohg_identity(labels: &[u8], out: &mut [u8]) -> u64 {
    unsafe { c::ohg_identity(labels.as_ptr(), labels.len(), out.as_mut_ptr(), out.len()) }
}

pub fn ohg_singleton(label: u32, sources: &[u8], targets: &[u8], out: &mut [u8]) -> u64 {
    unsafe {
        c::ohg_singleton(
            label,
            sources.as_ptr(),
            sources.len(),
            targets.as_ptr(),
            targets.len(),
            out.as_mut_ptr(),
            out.len(),
        )
    }
}

pub fn ohg_new_node(src: &[u8], label: u32, out: &mut [u8]) -> u64 {
    unsafe { c::ohg_new_node(src.as_ptr(), src.len(), label, out.as_mut_ptr(), out.len()) }
}

pub fn ohg_new_edge(src: &[u8], label: u32, sources: &[u8], targets: &[u8], out: &mut [u8]) -> u64 {
    unsafe {
        c::ohg_new_edge(
            src.as_ptr(),
            src.len(),
            label,
            sources.as_ptr(),
            sources.len(),
            targets.as_ptr(),
            targets.len(),
            out.as_mut_ptr(),
            out.len(),
        )
    }
}

pub fn ohg_new_operation(
    src: &[u8],
    label: u32,
    sources: &[u8],
    targets: &[u8],
    out: &mut [u8],
) -> u64 {
    unsafe {
        c::ohg_new_operation(
            src.as_ptr(),
            src.len(),
            label,
            sources.as_ptr(),
            sources.len(),
            targets.as_ptr(),
            targets.len(),
            out.as_mut_ptr(),
            out.len(),
        )
    }
}

pub fn ohg_unify(src: &[u8], v: u32, w: u32, out: &mut [u8]) -> u64 {
    unsafe { c::ohg_unify(src.as_ptr(), src.len(), v, w, out.as_mut_ptr(), out.len()) }
}

pub fn ohg_add_edge_source(src: &[u8], edge: u32, label: u32, out: &mut [u8]) -> u64 {
    unsafe {
        c::ohg_add_edge_source(
            src.as_ptr(),
            src.len(),
            edge,
            label,
            out.as_mut_ptr(),
            out.len(),
        )
    }
}

pub fn ohg_add_edge_target(src: &[u8], edge: u32, label: u32, out: &mut [u8]) -> u64 {
    unsafe {
        c::ohg_add_edge_target(
            src.as_ptr(),
            src.len(),
            edge,
            label,
            out.as_mut_ptr(),
            out.len(),
        )
    }
}
