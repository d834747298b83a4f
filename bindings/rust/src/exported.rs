//! The functions of `libohg.a` as `bindings/ohg.h` declares them, and those of `libprice.a` as `bindings/price.h` does, each
//! behind a safe one of the same name over slices. All unsafe code of this crate is here. `ohg_rewrite` is left out: a
//! graph's bytes are its form, so it would answer the same bytes.

/// Declares functions and makes the safe ones. A row has the parameters in their order: slices that are read, numbers,
/// further slices that are read, slices that are written. Before it stands the feature that it needs, if any.
macro_rules! exported {
    ($($(#[$needs:meta])? $name:ident($($src:ident)*; $($number:ident)*; $($list:ident)*; $($out:ident)*);)*) => {
        mod c {
            extern "C" {
                $($(#[$needs])? pub fn $name(
                    $($src: *const u8, _: usize,)*
                    $($number: u32,)*
                    $($list: *const u8, _: usize,)*
                    $($out: *mut u8, _: usize,)*
                ) -> u64;)*
            }
        }

        $($(#[$needs])? pub fn $name(
            $($src: &[u8],)*
            $($number: u32,)*
            $($list: &[u8],)*
            $($out: &mut [u8],)*
        ) -> u64 {
            // SAFETY: each pointer is a slice's, with its own length, so it is not null and is lent for the call, and
            // what is written overlaps nothing else. The library asks no more: it checks all bytes itself.
            unsafe {
                c::$name(
                    $($src.as_ptr(), $src.len(),)*
                    $($number,)*
                    $($list.as_ptr(), $list.len(),)*
                    $($out.as_mut_ptr(), $out.len(),)*
                )
            }
        })*
    };
}

exported! {
    ohg_read(src;;; sizes);
    ohg_empty(;;; out);
    ohg_discrete(labels;;; out);
    ohg_identity(labels;;; out);
    ohg_singleton(; label; source_labels target_labels; out);
    ohg_new_node(src; label;; out);
    ohg_new_edge(src; label; sources targets; out);
    ohg_new_operation(src; label; source_labels target_labels; out);
    ohg_unify(src; v w;; out);
    ohg_add_edge_source(src; edge label;; out);
    ohg_add_edge_target(src; edge label;; out);
    ohg_delete_edges(src ids;;; out room);
    ohg_delete_nodes(src ids;;; out map room);
    ohg_build(src steps;;; out room);
    ohg_quotient(src;;; out map room);
    ohg_cycle_breaking_nodes(src;;; list room);
    ohg_cycle_breaking_nodes_keeping(src kept;;; list room);
    ohg_cycle_breaking_nodes_scanning(src kept;;; list room);
    ohg_reasons(src;;; out room);
    ohg_spiderize(src;;; out room);
    ohg_spiderize_nodes(src ids;;; out room);
    ohg_find_loop(src;;; list room);
    ohg_no_loop(src;;; room);
    ohg_once_fed(src;;; room);
    #[cfg(feature = "price")]
    ohg_price(src;;; out room);
    #[cfg(feature = "price")]
    ohg_price_range(src;;; out room);
}
