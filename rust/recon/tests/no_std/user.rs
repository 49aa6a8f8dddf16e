//! A crate without std that uses recon. It has a panic handler, so that it does not compile where recon brings std, which has another.
#![no_std]

#[panic_handler]
fn panic(_: &core::panic::PanicInfo<'_>) -> ! {
    loop {}
}

pub use recon::open_session;
