//! The panic handler of a build without std. It is proved that no function panics.
#![allow(unsafe_code)]

#[cfg(target_family = "wasm")]
fn end() -> ! {
    core::arch::wasm32::unreachable()
}

#[cfg(not(target_family = "wasm"))]
fn end() -> ! {
    extern "C" {
        fn abort() -> !;
    }
    // SAFETY: C's abort may be called at any time.
    unsafe { abort() }
}

#[panic_handler]
fn panic(_: &core::panic::PanicInfo<'_>) -> ! {
    end()
}
