//! Shim for `entity/packed_option.rs`: the trait alone.

/// A type with one value that stands for "none".
pub trait ReservedValue {
    /// That value.
    fn reserved_value() -> Self;

    /// Whether this is that value.
    fn is_reserved_value(&self) -> bool;
}
