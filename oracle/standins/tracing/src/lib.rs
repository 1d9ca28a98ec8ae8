//! Stand-in for the `tracing` crate: `warn!` looks at its fields and says nothing.

/// Takes the fields, so that the caller's variables count as used, and drops them.
#[macro_export]
macro_rules! warn {
    (target: $target:expr, $($field:ident = $value:expr),* $(,)?) => {{
        let _ = $target;
        $(let _ = &$value;)*
    }};
}
