//! The declarations of `fanlightnard.h`, and safe functions around them. All `unsafe` code is here.

use crate::{Cells, Error, Options};
use std::any::Any;
use std::io;
use std::os::raw::{c_char, c_int, c_void};
use std::panic::{catch_unwind, resume_unwind, AssertUnwindSafe};

/// In the place of an end: the cell has no value.
pub(crate) const NULL: usize = usize::MAX;

/// The error of a writer that stopped.
const STOPPED: c_int = -11;

#[repr(C)]
struct RawCells {
    text: *const c_char,
    text_len: usize,
    ends: *const usize,
    ends_len: usize,
    rows: usize,
    columns: usize,
}

#[repr(C)]
struct RawOptions {
    size: usize,
    style: u32,
    fit: u32,
    order: u32,
    header: u32,
    width: usize,
    align: *const u8,
    align_len: usize,
    null: *const c_char,
    null_len: usize,
}

type RawWriter = extern "C" fn(*mut c_void, *const c_char, usize) -> c_int;

extern "C" {
    fn fanlightnard_format(
        cells: *const RawCells,
        options: *const RawOptions,
        buffer: *mut c_char,
        buffer_len: usize,
    ) -> isize;
    fn fanlightnard_write(
        cells: *const RawCells,
        options: *const RawOptions,
        writer: RawWriter,
        context: *mut c_void,
    ) -> c_int;
    fn fanlightnard_measure(text: *const c_char, text_len: usize) -> isize;
    fn fanlightnard_truncate(
        text: *const c_char,
        text_len: usize,
        columns: usize,
        buffer: *mut c_char,
        buffer_len: usize,
    ) -> isize;
    fn fanlightnard_wrap(
        text: *const c_char,
        text_len: usize,
        columns: usize,
        words: c_int,
        buffer: *mut c_char,
        buffer_len: usize,
    ) -> isize;
}

fn raw_cells(cells: &Cells) -> RawCells {
    RawCells {
        text: cells.text.as_ptr().cast(),
        text_len: cells.text.len(),
        ends: cells.ends.as_ptr(),
        ends_len: cells.ends.len(),
        rows: cells.rows,
        columns: cells.columns,
    }
}

fn raw_options(options: &Options) -> RawOptions {
    RawOptions {
        size: std::mem::size_of::<RawOptions>(),
        style: options.style as u32,
        fit: options.fit as u32,
        order: options.order as u32,
        header: options.header.into(),
        width: options.width,
        // `Align` is a `u8`.
        align: options.align.as_ptr().cast(),
        align_len: options.align.len(),
        null: options.null.as_ptr().cast(),
        null_len: options.null.len(),
    }
}

pub(crate) fn format(cells: &Cells, options: &Options, buffer: &mut [u8]) -> isize {
    let (cells, options) = (raw_cells(cells), raw_options(options));
    // SAFETY: each pointer is that of a live slice, and comes with its length. The buffer is borrowed
    // mutably, so nothing overlaps it.
    unsafe { fanlightnard_format(&cells, &options, buffer.as_mut_ptr().cast(), buffer.len()) }
}

/// A writer, and how it failed.
struct Context<'a> {
    write: &'a mut dyn FnMut(&[u8]) -> io::Result<()>,
    failed: Option<io::Error>,
    panicked: Option<Box<dyn Any + Send>>,
}

extern "C" fn write_block(context: *mut c_void, block: *const c_char, len: usize) -> c_int {
    // SAFETY: `write` passes a `Context` that nothing else uses during the call, and the library a
    // block of `len` bytes, which is valid until this function returns.
    let (context, block) = unsafe {
        let context = &mut *context.cast::<Context<'_>>();
        (context, std::slice::from_raw_parts(block.cast::<u8>(), len))
    };
    // A panic must not pass through C.
    match catch_unwind(AssertUnwindSafe(|| (context.write)(block))) {
        Ok(Ok(())) => return 0,
        Ok(Err(error)) => context.failed = Some(error),
        Err(panic) => context.panicked = Some(panic),
    }
    1
}

pub(crate) fn write(
    cells: &Cells,
    options: &Options,
    write: &mut dyn FnMut(&[u8]) -> io::Result<()>,
) -> io::Result<()> {
    let (cells, options) = (raw_cells(cells), raw_options(options));
    let mut context = Context {
        write,
        failed: None,
        panicked: None,
    };
    let pointer: *mut Context<'_> = &mut context;
    // SAFETY: as in `format`. The context outlives the call, which keeps no pointer to it.
    let result = unsafe { fanlightnard_write(&cells, &options, write_block, pointer.cast()) };
    if let Some(panic) = context.panicked {
        resume_unwind(panic);
    }
    match context.failed {
        Some(error) if result == STOPPED => Err(error),
        _ => Ok(Error::check(result as isize).map(|_| ())?),
    }
}

pub(crate) fn measure(text: &str) -> isize {
    // SAFETY: the pointer is that of a live slice, and comes with its length.
    unsafe { fanlightnard_measure(text.as_ptr().cast(), text.len()) }
}

pub(crate) fn truncate(text: &str, columns: usize, buffer: &mut [u8]) -> isize {
    let (at, len) = (buffer.as_mut_ptr().cast(), buffer.len());
    // SAFETY: as in `format`.
    unsafe { fanlightnard_truncate(text.as_ptr().cast(), text.len(), columns, at, len) }
}

pub(crate) fn wrap(text: &str, columns: usize, words: bool, buffer: &mut [u8]) -> isize {
    let (at, len) = (buffer.as_mut_ptr().cast(), buffer.len());
    // SAFETY: as in `format`.
    unsafe { fanlightnard_wrap(text.as_ptr().cast(), text.len(), columns, words.into(), at, len) }
}
