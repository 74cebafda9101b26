//! A handle that is filled, and closes itself.
use crate::sys;
use std::ptr;

pub(crate) struct Handle(sys::Handle);

// SAFETY: that what lies behind a handle may cross threads is proved (`handles_cross_threads` of `paglunet_c`). A handle is
// not `Sync`: each call takes it by `&mut`.
unsafe impl Send for Handle {}

impl Handle {
    /// The handle that this call has filled, or its answer.
    pub(crate) fn filled(by: impl FnOnce(*mut sys::Handle) -> u32) -> Result<Handle, u32> {
        let mut raw = sys::Handle {
            at: ptr::null_mut(),
        };
        match by(&mut raw) {
            sys::OK => Ok(Handle(raw)),
            status => Err(status),
        }
    }

    pub(crate) fn at(&mut self) -> *mut sys::Handle {
        &mut self.0
    }
}

impl Drop for Handle {
    fn drop(&mut self) {
        // SAFETY: the handle is filled, and nothing uses it after.
        unsafe { sys::paglunet_close(&mut self.0) }
    }
}
