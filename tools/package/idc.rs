//! idc as calls: the program in docs/play/index.html, as C that wasm2c made of its module.
//!
//! A call is one run of the program, and leaves nothing to the next. `build.rs` compiles idc.c, or it is linked by
//! hand: `cc -O1 -w -c idc.c`, and `rustc .. -C link-arg=idc.o -C link-arg=-lm`.

use std::ffi::{c_char, c_int, c_void, CStr, CString, NulError};

/// The status of the program, and both streams.
#[derive(Debug, Clone, PartialEq, Eq)]
pub struct Answer {
    pub status: i32,
    pub out: String,
    pub err: String,
}

#[repr(C)]
struct File {
    name: *const c_char,
    bytes: *const c_void,
    length: usize,
}

#[repr(C)]
struct Told {
    status: c_int,
    out: *mut c_char,
    out_length: usize,
    err: *mut c_char,
    err_length: usize,
}

extern "C" {
    fn idc_call(words: *const *const c_char, count: usize, files: *const File, file_count: usize, told: *mut Told)
        -> c_int;
    fn idc_free(told: *mut Told);
    fn idc_of() -> *const c_char;
}

/// What the module is made of.
pub fn of() -> &'static str {
    unsafe { CStr::from_ptr(idc_of()) }.to_str().unwrap_or("")
}

/// What `idc WORDS` answers where these files, each a name and a text, are all that there is. No word or name has a
/// byte 0.
pub fn call(words: &[&str], files: &[(&str, &[u8])]) -> Result<Answer, NulError> {
    let words = words.iter().map(|it| CString::new(*it)).collect::<Result<Vec<_>, _>>()?;
    let names = files.iter().map(|it| CString::new(it.0)).collect::<Result<Vec<_>, _>>()?;
    let as_words: Vec<_> = words.iter().map(|it| it.as_ptr()).collect();
    let as_file = |(name, it): (&CString, &(&str, &[u8]))| File {
        name: name.as_ptr(),
        bytes: it.1.as_ptr().cast(),
        length: it.1.len(),
    };
    let as_files: Vec<_> = names.iter().zip(files).map(as_file).collect();
    let nothing = std::ptr::null_mut();
    let mut told = Told { status: 0, out: nothing, out_length: 0, err: nothing, err_length: 0 };
    let text = |from: *mut c_char, length| {
        let bytes = unsafe { std::slice::from_raw_parts(from.cast::<u8>(), length) };
        String::from_utf8_lossy(bytes).into_owned()
    };
    let done =
        unsafe { idc_call(as_words.as_ptr(), as_words.len(), as_files.as_ptr(), as_files.len(), &mut told) };
    assert!(done == 0, "idc: out of memory");
    let answer =
        Answer { status: told.status, out: text(told.out, told.out_length), err: text(told.err, told.err_length) };
    unsafe { idc_free(&mut told) };
    Ok(answer)
}

/// What `idc run text.id WORDS` answers, where the text stands in text.id.
pub fn run(text: &str, words: &[&str]) -> Result<Answer, NulError> {
    let all: Vec<&str> = ["run", "text.id"].into_iter().chain(words.iter().copied()).collect();
    call(&all, &[("text.id", text.as_bytes())])
}
