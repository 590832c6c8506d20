// Keeps a log in a file. Each request is written behind the others, and the line for it says how
// many bytes the file has then.
//
// `std::fs` asks for rights that no file has here. So files are opened by the C library, which std
// stands on. docs/WORKERS.md has the line that builds it.

use std::ffi::CString;
use std::fs::File;
use std::io::{self, Read, Write};
use std::os::raw::{c_char, c_int};
use std::os::wasi::io::FromRawFd;

extern "C" {
    fn open(path: *const c_char, flags: c_int, ...) -> c_int;
}

// Of `__header_fcntl.h` in wasi-libc.
const APPEND: c_int = 1;
const CREATE: c_int = 1 << 12;
const READ: c_int = 0x0400_0000;
const WRITE: c_int = 0x1000_0000;

/// Opens a file as C does.
fn opened(path: &str, flags: c_int) -> io::Result<File> {
    let path = CString::new(path)?;
    // `open` reads the path up to its zero byte, and keeps nothing of it.
    let number = unsafe { open(path.as_ptr(), flags) };
    if number < 0 {
        return Err(io::Error::last_os_error());
    }
    // The number is new, and belongs to nobody else.
    Ok(unsafe { File::from_raw_fd(number) })
}

fn main() -> io::Result<()> {
    for request in io::stdin().lines() {
        writeln!(opened("log", WRITE | APPEND | CREATE)?, "{}", request?)?;
        let mut text = String::new();
        opened("log", READ)?.read_to_string(&mut text)?;
        println!("{}", text.len());
    }
    Ok(())
}
