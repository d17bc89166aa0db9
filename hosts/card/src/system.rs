//! The few calls of the system that Rust's library lacks: locks, a device's block size, the terminal's width, a read-only mapping, and whether standard output was open.
use std::fs::File;
use std::io::{Error, ErrorKind, Result};
use std::os::fd::{AsRawFd, FromRawFd};
use std::sync::atomic::{AtomicBool, Ordering};

extern "C" {
    fn flock(fd: i32, operation: i32) -> i32;
    fn ioctl(fd: i32, request: u64, ...) -> i32;
    fn fcntl(fd: i32, command: i32, ...) -> i32;
    fn mmap(address: *mut u8, length: usize, protection: i32, flags: i32, fd: i32, place: i64) -> *mut u8;
    fn memfd_create(name: *const u8, flags: u32) -> i32;
    fn posix_fadvise(fd: i32, place: i64, length: i64, advice: i32) -> i32;
    fn signal(number: i32, handler: usize) -> usize;
    fn write(fd: i32, bytes: *const u8, length: usize) -> isize;
    fn _exit(status: i32) -> !;
}

const LOCK_SHARED: i32 = 1;
const LOCK_EXCLUSIVE: i32 = 2;
const LOCK_NO_WAIT: i32 = 4;
const BLOCK_SIZE_OF_DEVICE: u64 = 0x1268;
const READ_TABLE_AGAIN: u64 = 0x125f;
const WINDOW_SIZE: u64 = 0x5413;
const GET_FLAGS: i32 = 3;
const PROTECT_READ: i32 = 1;
const MAP_SHARED: i32 = 1;
const NOT_NEEDED: i32 = 4;
const BUS_ERROR: i32 = 7;

/// Locks a file for as long as it is open, for one writer or for several readers. Where another program has it, `wait` is called once, and then it is waited for.
pub fn lock(file: &File, exclusive: bool, wait: impl FnOnce()) -> Result<()> {
    let operation = if exclusive { LOCK_EXCLUSIVE } else { LOCK_SHARED };
    let locked = |operation| {
        // SAFETY: the call takes numbers alone, and the descriptor is that of an open file.
        match unsafe { flock(file.as_raw_fd(), operation) } {
            0 => Ok(()),
            _ => Err(Error::last_os_error()),
        }
    };
    let again = |operation| loop {
        match locked(operation) {
            Err(failure) if failure.kind() == ErrorKind::Interrupted => {}
            done => return done,
        }
    };
    match again(operation | LOCK_NO_WAIT) {
        Err(failure) if failure.kind() == ErrorKind::WouldBlock => {
            wait();
            again(operation)
        }
        done => done,
    }
}

/// The size of a block device's logical blocks.
pub fn device_block_size(device: &File) -> Result<u64> {
    let mut size: i32 = 0;
    // SAFETY: this request stores one int where the pointer says, and the descriptor is that of an open file.
    match unsafe { ioctl(device.as_raw_fd(), BLOCK_SIZE_OF_DEVICE, &mut size as *mut i32) } {
        0 => Ok(size as u64),
        _ => Err(Error::last_os_error()),
    }
}

/// Has the kernel read a device's table again. It does so only if none of its partitions is in use.
pub fn read_table_again(device: &File) -> Result<()> {
    // SAFETY: this request takes no argument.
    match unsafe { ioctl(device.as_raw_fd(), READ_TABLE_AGAIN) } {
        0 => Ok(()),
        _ => Err(Error::last_os_error()),
    }
}

/// Asks the system to forget what it keeps of a file, so that what is read next comes from the device. A system that does not is no failure.
pub fn forget(file: &File) {
    // SAFETY: the call takes numbers alone.
    unsafe { posix_fadvise(file.as_raw_fd(), 0, 0, NOT_NEEDED) };
}

/// A file without a name, of which only what is written takes memory.
pub fn file_in_memory() -> Result<File> {
    // SAFETY: the name is bytes that end with a zero; the descriptor that comes back is new, and nobody else's.
    match unsafe { memfd_create(b"card\0".as_ptr(), 0) } {
        -1 => Err(Error::last_os_error()),
        fd => Ok(unsafe { File::from_raw_fd(fd) }),
    }
}

/// How many columns the terminal of standard output has, if it is one.
pub fn terminal_width() -> Option<usize> {
    let mut size = [0u16; 4];
    // SAFETY: this request stores four numbers of 16 bits where the pointer says.
    let answer = unsafe { ioctl(1, WINDOW_SIZE, size.as_mut_ptr()) };
    (answer == 0 && size[1] > 0).then_some(size[1] as usize)
}

/// The bytes of a file, mapped to be read. They stay mapped until the program ends.
pub fn map(file: &File, length: usize) -> Result<&'static [u8]> {
    if length == 0 {
        return Ok(&[]);
    }
    // SAFETY: handler and number are valid: the handler only calls what may be called from a signal.
    unsafe { signal(BUS_ERROR, shrank as extern "C" fn(i32) as usize) };
    // SAFETY: a new mapping of an open file, which overlaps nothing.
    let bytes = unsafe { mmap(std::ptr::null_mut(), length, PROTECT_READ, MAP_SHARED, file.as_raw_fd(), 0) };
    if bytes as isize == -1 {
        return Err(Error::last_os_error());
    }
    // SAFETY: the mapping has this length and is never undone. The file is locked; a writer that keeps no lock could change it, and a reader of numbers takes every byte.
    Ok(unsafe { std::slice::from_raw_parts(bytes, length) })
}

/// The file has become shorter than its mapping.
extern "C" fn shrank(_: i32) {
    let words = b"card: the file became shorter while it was read\n";
    // SAFETY: both may be called from a signal; the bytes are static.
    unsafe {
        write(2, words.as_ptr(), words.len());
        _exit(3)
    }
}

static OUTPUT_CLOSED: AtomicBool = AtomicBool::new(false);

/// Rust opens a standard output that was closed as /dev/null, so this looks before Rust begins.
extern "C" fn look_at_output() {
    // SAFETY: the call takes numbers alone.
    let open = unsafe { fcntl(1, GET_FLAGS) } != -1;
    OUTPUT_CLOSED.store(!open, Ordering::Relaxed);
}

#[used]
#[link_section = ".init_array"]
static LOOK: extern "C" fn() = look_at_output;

/// Whether standard output was closed when the program began.
pub fn output_was_closed() -> bool {
    OUTPUT_CLOSED.load(Ordering::Relaxed)
}
