//! The port's calls on whole scripts. A slice goes over as a pointer and a length.

#[cfg(entry)]
extern "C" {
    fn rk_script(script: *const u8, length: usize, out: *mut u8, room: usize) -> u32;
}

#[cfg(listed)]
extern "C" {
    fn rk_probe_listing(script: *const u8, length: usize, out: *mut u8, room: usize) -> usize;
}

#[cfg(left)]
extern "C" {
    fn rk_probe_fields(script: *const u8, length: usize, out: *mut u8, room: usize) -> usize;
}

#[cfg(late_listed)]
extern "C" {
    fn rk_probe_listing_from(
        start: u64,
        script: *const u8,
        length: usize,
        out: *mut u8,
        room: usize,
    ) -> usize;
}

#[cfg(late_left)]
extern "C" {
    fn rk_probe_fields_from(
        start: u64,
        script: *const u8,
        length: usize,
        out: *mut u8,
        room: usize,
    ) -> usize;
}

#[cfg(rewritten)]
extern "C" {
    fn rk_probe_rewritten(script: *const u8, length: usize, out: *mut u8, room: usize) -> usize;
}

/// Which of these the archives have.
pub const ENTRY: bool = cfg!(entry);
pub const LISTED: bool = cfg!(listed);
pub const LEFT: bool = cfg!(left);
pub const LATE_LISTED: bool = cfg!(late_listed);
pub const LATE_LEFT: bool = cfg!(late_left);
pub const REWRITTEN: bool = cfg!(rewritten);

/// 01's entry: its answer and the lent bytes after it.
#[cfg(entry)]
pub fn last_frame(script: &[u8], out: &mut [u8]) -> Option<u32> {
    Some(unsafe { rk_script(script.as_ptr(), script.len(), out.as_mut_ptr(), out.len()) })
}

#[cfg(not(entry))]
pub fn last_frame(_: &[u8], _: &mut [u8]) -> Option<u32> {
    None
}

/// The listing that the port's program prints: its length.
#[cfg(listed)]
pub fn listing(script: &[u8], out: &mut [u8]) -> Option<usize> {
    let (at, length) = (script.as_ptr(), script.len());
    Some(unsafe { rk_probe_listing(at, length, out.as_mut_ptr(), out.len()) })
}

#[cfg(not(listed))]
pub fn listing(_: &[u8], _: &mut [u8]) -> Option<usize> {
    None
}

/// What every field leaves: the state, 8 bytes a value, big-endian, in the order of `oracle state`; the
/// last accepted frame as the entry fills it; and a byte for a trigger's answer.
#[cfg(left)]
pub fn fields(script: &[u8], out: &mut [u8]) -> Option<usize> {
    let (at, length) = (script.as_ptr(), script.len());
    Some(unsafe { rk_probe_fields(at, length, out.as_mut_ptr(), out.len()) })
}

#[cfg(not(left))]
pub fn fields(_: &[u8], _: &mut [u8]) -> Option<usize> {
    None
}

/// The listing on an engine that has counted `start` samples and is new otherwise.
#[cfg(late_listed)]
pub fn listing_from(start: u64, script: &[u8], out: &mut [u8]) -> Option<usize> {
    let (at, length) = (script.as_ptr(), script.len());
    Some(unsafe { rk_probe_listing_from(start, at, length, out.as_mut_ptr(), out.len()) })
}

#[cfg(not(late_listed))]
pub fn listing_from(_: u64, _: &[u8], _: &mut [u8]) -> Option<usize> {
    None
}

/// The same on an engine that has counted `start` samples and is new otherwise.
#[cfg(late_left)]
pub fn fields_from(start: u64, script: &[u8], out: &mut [u8]) -> Option<usize> {
    let (at, length) = (script.as_ptr(), script.len());
    Some(unsafe { rk_probe_fields_from(start, at, length, out.as_mut_ptr(), out.len()) })
}

#[cfg(not(late_left))]
pub fn fields_from(_: u64, _: &[u8], _: &mut [u8]) -> Option<usize> {
    None
}

/// The fields of a script, read and written again one behind the other: how many bytes.
#[cfg(rewritten)]
pub fn rewritten(script: &[u8], out: &mut [u8]) -> Option<usize> {
    let (at, length) = (script.as_ptr(), script.len());
    Some(unsafe { rk_probe_rewritten(at, length, out.as_mut_ptr(), out.len()) })
}

#[cfg(not(rewritten))]
pub fn rewritten(_: &[u8], _: &mut [u8]) -> Option<usize> {
    None
}
