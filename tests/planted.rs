// Faults planted on purpose, so that the tests are seen to catch them. Only a program built with `--cfg faults` has them, and of these the one
// that the variable FAULT names.
#[cfg(faults)]
pub fn planted(name: &str) -> bool {
    thread_local!(static FAULT: String = std::env::var("FAULT").unwrap_or_default());
    FAULT.with(|fault| fault == name)
}

#[cfg(not(faults))]
pub const fn planted(_name: &str) -> bool {
    false
}
