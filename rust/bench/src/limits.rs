//! What an opening can hardly be faster than: reading its table once, and hashing its fingerprints.

use crate::cases::Table;
use recon::Cut;
use std::ffi::{c_void, CStr};
use std::os::raw::{c_char, c_int};
use std::ptr;

/// The value, of which the compiler knows nothing.
fn opaque<T: Copy>(value: T) -> T {
    // SAFETY: a reference is valid for reads.
    unsafe { ptr::read_volatile(&value) }
}

/// The sum of the 64-bit words of the times and the ids.
pub fn read_once(table: &Table) -> u64 {
    let times: &[u64] = opaque(&table.times);
    let ids: &[u8] = opaque(&table.ids);
    opaque(sum(times.iter().copied()).wrapping_add(sum(ids.chunks_exact(8).map(word))))
}

fn sum(words: impl Iterator<Item = u64>) -> u64 {
    words.fold(0, u64::wrapping_add)
}

fn word(bytes: &[u8]) -> u64 {
    let mut array = [0; 8];
    array.copy_from_slice(bytes);
    u64::from_le_bytes(array)
}

/// How many fingerprints the opening of a table makes.
pub fn fingerprints(table: &Table, cut: Cut) -> usize {
    if table.count() > cut.limit {
        cut.parts
    } else {
        0
    }
}

/// The longest message that a fingerprint hashes: a sum of 32 bytes and a varint of 10.
pub const MESSAGE: [u8; 42] = [0x5a; 42];

/// SHA256_CTX of openssl/sha.h.
#[repr(C)]
struct Context {
    words: [u32; 28],
}

#[link(name = "crypto")]
extern "C" {
    fn SHA256_Init(context: *mut Context) -> c_int;
    fn SHA256_Update(context: *mut Context, data: *const c_void, length: usize) -> c_int;
    fn SHA256_Final(digest: *mut u8, context: *mut Context) -> c_int;
    fn OpenSSL_version(kind: c_int) -> *const c_char;
}

/// Hashes the message so many times; the last digest. Not by the one-shot SHA256(), which is slower on short messages.
pub fn hash(count: usize) -> [u8; 32] {
    let mut digest = [0; 32];
    let mut context = Context { words: [0; 28] };
    for _ in 0..count {
        // SAFETY: the context has the size that SHA256_CTX has, and the digest 32 bytes.
        unsafe {
            SHA256_Init(&mut context);
            SHA256_Update(&mut context, MESSAGE.as_ptr().cast(), MESSAGE.len());
            SHA256_Final(digest.as_mut_ptr(), &mut context);
        }
    }
    digest
}

/// OpenSSL's name and version, without its date.
pub fn openssl_version() -> String {
    // SAFETY: the answer is a string that stays.
    let text = unsafe { CStr::from_ptr(OpenSSL_version(0)) }.to_string_lossy();
    text.split_whitespace().take(2).collect::<Vec<_>>().join(" ")
}
