//! How much stack a call uses: it is done by a thread whose stack was painted before.
use std::ffi::c_void;

const SIZE: usize = 1 << 20;
const PAINT: u8 = 0xa5;

extern "C" {
    fn pthread_attr_init(attr: *mut c_void) -> i32;
    fn pthread_attr_setstack(attr: *mut c_void, stack: *mut c_void, size: usize) -> i32;
    fn pthread_create(thread: *mut usize, attr: *const c_void, f: extern "C" fn(*mut c_void) -> *mut c_void, arg: *mut c_void) -> i32;
    fn pthread_join(thread: usize, result: *mut *mut c_void) -> i32;
}

extern "C" fn call<F: FnMut()>(f: *mut c_void) -> *mut c_void {
    unsafe { (*(f as *mut F))() };
    std::ptr::null_mut()
}

/// The bytes from the top of the stack to the lowest that the thread changed.
pub fn used<F: FnMut()>(mut f: F) -> usize {
    let mut stack = vec![PAINT; SIZE + 4096];
    let base = (stack.as_mut_ptr() as usize + 4095) & !4095;
    let (mut attr, mut thread) = ([0u64; 16], 0usize);
    unsafe {
        let attr = attr.as_mut_ptr() as *mut c_void;
        assert_eq!(pthread_attr_init(attr), 0);
        assert_eq!(pthread_attr_setstack(attr, base as *mut c_void, SIZE), 0);
        assert_eq!(pthread_create(&mut thread, attr, call::<F>, &mut f as *mut F as *mut c_void), 0);
        assert_eq!(pthread_join(thread, std::ptr::null_mut()), 0);
        let first = (0..SIZE).find(|i| ((base + i) as *const u8).read_volatile() != PAINT).unwrap_or(SIZE);
        SIZE - first
    }
}
