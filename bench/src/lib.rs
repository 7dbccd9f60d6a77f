//! What the proved rules and the program `evening` are measured beside. It needs no archive, so that `cargo test --lib`
//! runs without one.

pub mod evening;
pub mod tuned;

/// A value that the compiler cannot see through, so that nothing is worked out before the clock starts, and nothing is
/// left out that no figure needs. The standard library has it too, in releases later than `rust-version` of Cargo.toml.
pub fn opaque<T>(value: T) -> T {
    let value = std::mem::ManuallyDrop::new(value);
    // The place is read once, and what was in it is not dropped there.
    unsafe { std::mem::ManuallyDrop::into_inner(std::ptr::read_volatile(&value)) }
}
