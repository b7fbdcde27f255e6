//! Stands in for the crate `iota`: numbers constants from 0 in the order written, in the one form that op.rs uses.

#[macro_export]
macro_rules! iota {
    (pub const $first:ident: $number:ty = iota;, $($next:ident),*) => {
        #[allow(non_camel_case_types, clippy::upper_case_acronyms)]
        enum Order { $first, $($next),* }
        pub const $first: $number = Order::$first as $number;
        $(pub const $next: $number = Order::$next as $number;)*
    };
}
