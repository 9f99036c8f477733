//! Libraries found at run time.

use std::ffi::{c_char, c_int, c_void, CStr};

extern "C" {
    fn dlopen(name: *const c_char, flags: c_int) -> *mut c_void;
    fn dlsym(library: *mut c_void, name: *const c_char) -> *mut c_void;
}

/// RTLD_NOW and RTLD_GLOBAL.
const FLAGS: c_int = 0x102;

/// A loaded library. It is never unloaded, so its functions stay.
pub struct Library(*mut c_void);

impl Library {
    /// The library of this name, or the word that its Debian package is missing.
    pub fn load(name: &CStr, package: &str) -> Result<Library, String> {
        // The libraries loaded here do nothing on loading but set up tables.
        let found = unsafe { dlopen(name.as_ptr(), FLAGS) };
        let missing = || format!("{} was not found and is skipped: install the Debian package {package}.", name.to_string_lossy());
        if found.is_null() { Err(missing()) } else { Ok(Library(found)) }
    }

    /// A function of the library.
    ///
    /// # Safety
    /// F is a pointer to a function of the type that the library gives this name.
    pub unsafe fn function<F: Copy>(&self, name: &CStr) -> Result<F, String> {
        assert_eq!(size_of::<F>(), size_of::<*mut c_void>());
        let found = dlsym(self.0, name.as_ptr());
        let missing = || format!("{} was not found and its library is skipped.", name.to_string_lossy());
        if found.is_null() { Err(missing()) } else { Ok(std::mem::transmute_copy(&found)) }
    }
}

/// Clears the upper halves of the vector registers. ISA-L leaves them in use, and code that only knows the lower
/// halves then takes up to four times as long: it would slow the versions that are timed after it.
pub fn clean_vectors() {
    #[cfg(target_arch = "x86_64")]
    if std::is_x86_feature_detected!("avx") {
        // The processor has the instruction.
        unsafe { zero_upper() }
    }
}

/// The instruction that clears them.
#[cfg(target_arch = "x86_64")]
#[target_feature(enable = "avx")]
unsafe fn zero_upper() {
    std::arch::x86_64::_mm256_zeroupper();
}
