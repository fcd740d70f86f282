//! Keeps the compiler from leaving out what a benchmark measures (std's black_box is younger than
//! rustc 1.63).

pub fn hold<T>(value: T) -> T {
    let kept = std::mem::ManuallyDrop::new(value);
    // A volatile read of a value that is then forgotten moves it out exactly once.
    unsafe { std::ptr::read_volatile(&*kept) }
}
