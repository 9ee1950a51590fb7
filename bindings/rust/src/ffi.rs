//! The calls of `typed_path.h`, and a safe function over each.
//!
//! The header asks four things of its caller, and they are kept here: a pointer is that of a slice, of the room of
//! a `Vec`, or of a local, with the length of just that; what a call writes is a local, or room that nothing else
//! that it is handed lies in; no thread writes to a slice that is lent; and what a call tells is taken only if its
//! status says that it told it. Every dialect is one of the two numbers, so no call refuses it.

use alloc::vec::Vec;
use core::cmp::Ordering;
use core::mem::MaybeUninit;
use core::ops::Range;

use crate::errors::{CheckedPathError, JoinError, OutOfMemory, PortableError, TryError};

/// The numbers of the dialects.
pub(crate) const UNIX: u32 = 0;
pub(crate) const WINDOWS: u32 = 1;

/// The statuses that are told apart here.
mod status {
    pub const DONE: u32 = 0;
    pub const INVALID_FILENAME: u32 = 1;
    pub const PATH_TRAVERSAL_ATTACK: u32 = 2;
    pub const UNEXPECTED_PREFIX: u32 = 3;
    pub const UNEXPECTED_ROOT: u32 = 4;
    pub const OUT_OF_MEMORY: u32 = 5;
    pub const HAS_PREFIX: u32 = 12;
    pub const FORBIDDEN: u32 = 13;
    pub const DEVICE: u32 = 14;
    pub const ENDING: u32 = 15;
    pub const TOO_LONG: u32 = 16;
    pub const NOT_TEXT: u32 = 17;
}

/// The kinds of components; `VERBATIM` and all behind it are prefixes.
pub(crate) mod kind {
    pub const ROOT: u32 = 0;
    pub const CURRENT: u32 = 1;
    pub const PARENT: u32 = 2;
    pub const NAME: u32 = 3;
    pub const VERBATIM: u32 = 4;
    pub const VERBATIM_UNC: u32 = 5;
    pub const VERBATIM_DISK: u32 = 6;
    pub const DEVICE_NS: u32 = 7;
    pub const UNC: u32 = 8;
    pub const DISK: u32 = 9;
}

#[repr(C)]
struct Span {
    start: usize,
    length: usize,
}

impl Span {
    const EMPTY: Span = Span { start: 0, length: 0 };

    #[inline]
    fn range(&self) -> Range<usize> {
        self.start..self.start + self.length
    }
}

#[repr(C)]
struct Placed {
    start: usize,
    length: usize,
    kind: u32,
}

#[repr(C)]
#[derive(Clone, Copy)]
struct Reading {
    from: usize,
    to: usize,
    stage: u32,
}

/// What paths are made of: bytes, or text.
pub(crate) trait Slice: AsRef<[u8]> {
    /// The part in a range.
    ///
    /// # Safety
    ///
    /// The range lies in this, and in text begins and ends between characters.
    unsafe fn part(&self, range: Range<usize>) -> &Self;
}

impl Slice for [u8] {
    #[inline]
    unsafe fn part(&self, range: Range<usize>) -> &Self {
        // SAFETY: the caller's.
        unsafe { self.get_unchecked(range) }
    }
}

impl Slice for str {
    #[inline]
    unsafe fn part(&self, range: Range<usize>) -> &Self {
        // SAFETY: the caller's.
        unsafe { self.get_unchecked(range) }
    }
}

/// A component: the number of its kind, and how it is written.
pub(crate) struct Taken<'a, S: ?Sized> {
    pub kind: u32,
    pub text: &'a S,
}

/// What is left of a path whose components are taken from both ends. Only the steps of the library change the numbers
/// of the reading.
pub(crate) struct Left<'a, S: ?Sized> {
    path: &'a S,
    reading: Reading,
}

impl<S: ?Sized> Clone for Left<'_, S> {
    #[inline]
    fn clone(&self) -> Self {
        *self
    }
}

impl<S: ?Sized> Copy for Left<'_, S> {}

impl<'a, S: Slice + ?Sized> Left<'a, S> {
    /// That of a path of which nothing was taken.
    #[inline]
    pub fn new(path: &'a S) -> Self {
        Left { path, reading: Reading { from: 0, to: path.as_ref().len(), stage: 0 } }
    }

    /// The whole path.
    #[inline]
    pub fn path(&self) -> &'a S {
        self.path
    }

    /// The slice left.
    #[inline]
    pub fn slice(&self) -> &'a S {
        // SAFETY: the numbers are those of a reading of this path, so they lie in it, in their order; and each is an
        // end of the path, or stands beside a separator, a dot or the colon of a drive, which are of one byte.
        unsafe { self.path.part(self.reading.from..self.reading.to) }
    }

    /// Whether nothing was taken from the front, so that the slice left is a path that reads as what is left.
    #[inline]
    pub fn has_its_front(&self) -> bool {
        self.reading.from == 0
    }

    /// Takes the first component that is left.
    #[inline]
    pub fn next(&mut self, dialect: u32) -> Option<Taken<'a, S>> {
        self.step(typed_path_next, dialect)
    }

    /// Takes the last component that is left.
    #[inline]
    pub fn next_back(&mut self, dialect: u32) -> Option<Taken<'a, S>> {
        self.step(typed_path_next_back, dialect)
    }

    #[inline(always)]
    fn step(&mut self, call: Step, dialect: u32) -> Option<Taken<'a, S>> {
        // No component is empty, so none is left of an empty slice, and no call need say so.
        if self.reading.from == self.reading.to {
            return None;
        }
        let path: &[u8] = self.path.as_ref();
        let mut placed = MaybeUninit::uninit();
        // SAFETY: the pointers are those of a slice, with its length, of the numbers, and of a local.
        let status =
            unsafe { call(dialect, path.as_ptr(), path.len(), &mut self.reading, placed.as_mut_ptr()) };
        if status != status::DONE {
            return None;
        }
        // SAFETY: a step that was done has set the component, which ends in the path; and it begins and ends where
        // the path does, or beside a separator or the colon of a drive, which are of one byte.
        unsafe {
            let Placed { start, length, kind } = placed.assume_init();
            Some(Taken { kind, text: self.path.part(start..start + length) })
        }
    }
}

type Step = unsafe extern "C" fn(u32, Text, usize, *mut Reading, *mut Placed) -> u32;

#[repr(C)]
struct Place {
    kept: usize,
    separator: u32,
}

type Text = *const u8;
type Out = *mut u8;

extern "C" {
    #[cfg(test)]
    fn typed_path_version() -> u32;
    fn typed_path_runs_here() -> bool;
    fn typed_path_derive(path: Text, path_len: usize) -> u32;
    fn typed_path_join(
        dialect: u32, path: Text, path_len: usize, other: Text, other_len: usize, out: Out, out_size: usize,
        len: *mut usize,
    ) -> u32;
    #[cfg(test)]
    fn typed_path_join_checked(
        dialect: u32, path: Text, path_len: usize, other: Text, other_len: usize, out: Out, out_size: usize,
        len: *mut usize,
    ) -> u32;
    fn typed_path_join_portable(
        dialect: u32, path: Text, path_len: usize, other: Text, other_len: usize, out: Out, out_size: usize,
        len: *mut usize,
    ) -> u32;
    fn typed_path_resolve_checked(
        dialect: u32, path: Text, path_len: usize, other: Text, other_len: usize, out: Out, out_size: usize,
        len: *mut usize,
    ) -> u32;
    fn typed_path_with_file_name(
        dialect: u32, path: Text, path_len: usize, name: Text, name_len: usize, out: Out, out_size: usize,
        len: *mut usize,
    ) -> u32;
    fn typed_path_with_extension(
        dialect: u32, path: Text, path_len: usize, extension: Text, extension_len: usize, out: Out,
        out_size: usize, len: *mut usize,
    ) -> u32;
    fn typed_path_with_added_extension(
        dialect: u32, path: Text, path_len: usize, extension: Text, extension_len: usize, out: Out,
        out_size: usize, len: *mut usize,
    ) -> u32;
    fn typed_path_normalize(
        dialect: u32, path: Text, path_len: usize, out: Out, out_size: usize, len: *mut usize,
    ) -> u32;
    fn typed_path_clean(
        dialect: u32, path: Text, path_len: usize, out: Out, out_size: usize, len: *mut usize,
    ) -> u32;
    fn typed_path_relative_to(
        dialect: u32, path: Text, path_len: usize, base: Text, base_len: usize, out: Out, out_size: usize,
        len: *mut usize,
    ) -> u32;
    fn typed_path_convert(
        dialect: u32, path: Text, path_len: usize, other: u32, out: Out, out_size: usize, len: *mut usize,
    ) -> u32;
    fn typed_path_convert_checked(
        dialect: u32, path: Text, path_len: usize, other: u32, out: Out, out_size: usize, len: *mut usize,
    ) -> u32;
    #[cfg(feature = "std")]
    fn typed_path_absolutize(
        dialect: u32, path: Text, path_len: usize, directory: Text, directory_len: usize, out: Out,
        out_size: usize, len: *mut usize,
    ) -> u32;
    fn typed_path_absolutize_from(
        dialect: u32, path: Text, path_len: usize, other: u32, directory: Text, directory_len: usize,
        out: Out, out_size: usize, len: *mut usize,
    ) -> u32;
    fn typed_path_to_ascii_lowercase(
        dialect: u32, path: Text, path_len: usize, out: Out, out_size: usize, len: *mut usize,
    ) -> u32;
    fn typed_path_starts_with_ignore_ascii_case(
        dialect: u32, path: Text, path_len: usize, base: Text, base_len: usize, answer: *mut bool,
    ) -> u32;
    fn typed_path_equal_ignore_ascii_case(
        dialect: u32, path: Text, path_len: usize, other: Text, other_len: usize, answer: *mut bool,
    ) -> u32;
    fn typed_path_compare_ignore_ascii_case(
        dialect: u32, path: Text, path_len: usize, other: Text, other_len: usize, order: *mut i32,
    ) -> u32;
    fn typed_path_parent(dialect: u32, path: Text, path_len: usize, span: *mut Span) -> u32;
    fn typed_path_file_name(dialect: u32, path: Text, path_len: usize, span: *mut Span) -> u32;
    fn typed_path_file_stem(dialect: u32, path: Text, path_len: usize, span: *mut Span) -> u32;
    fn typed_path_file_prefix(dialect: u32, path: Text, path_len: usize, span: *mut Span) -> u32;
    fn typed_path_extension(dialect: u32, path: Text, path_len: usize, span: *mut Span) -> u32;
    fn typed_path_strip_prefix(
        dialect: u32, path: Text, path_len: usize, base: Text, base_len: usize, span: *mut Span,
    ) -> u32;
    fn typed_path_common_ancestor(
        dialect: u32, path: Text, path_len: usize, other: Text, other_len: usize, span: *mut Span,
    ) -> u32;
    fn typed_path_simplified(dialect: u32, path: Text, path_len: usize, span: *mut Span) -> u32;
    fn typed_path_next(
        dialect: u32, path: Text, path_len: usize, reading: *mut Reading, component: *mut Placed,
    ) -> u32;
    fn typed_path_next_back(
        dialect: u32, path: Text, path_len: usize, reading: *mut Reading, component: *mut Placed,
    ) -> u32;
    fn typed_path_prefix_names(
        dialect: u32, path: Text, path_len: usize, first: *mut Span, second: *mut Span,
    ) -> u32;
    fn typed_path_push_place(
        dialect: u32, path: Text, path_len: usize, other: Text, other_len: usize, place: *mut Place,
    ) -> u32;
    fn typed_path_check(dialect: u32, path: Text, path_len: usize) -> u32;
    fn typed_path_check_portable(dialect: u32, path: Text, path_len: usize) -> u32;
    fn typed_path_is_absolute(dialect: u32, path: Text, path_len: usize, answer: *mut bool) -> u32;
    fn typed_path_has_root(dialect: u32, path: Text, path_len: usize, answer: *mut bool) -> u32;
    fn typed_path_is_valid(dialect: u32, path: Text, path_len: usize, answer: *mut bool) -> u32;
    fn typed_path_is_valid_name(dialect: u32, name: Text, name_len: usize, answer: *mut bool) -> u32;
    fn typed_path_is_portable(dialect: u32, path: Text, path_len: usize, answer: *mut bool) -> u32;
    fn typed_path_may_be_device(dialect: u32, path: Text, path_len: usize, answer: *mut bool) -> u32;
    fn typed_path_starts_with(
        dialect: u32, path: Text, path_len: usize, base: Text, base_len: usize, answer: *mut bool,
    ) -> u32;
    fn typed_path_ends_with(
        dialect: u32, path: Text, path_len: usize, end: Text, end_len: usize, answer: *mut bool,
    ) -> u32;
    fn typed_path_is_within(
        dialect: u32, path: Text, path_len: usize, base: Text, base_len: usize, answer: *mut bool,
    ) -> u32;
    fn typed_path_keeps_prefix(dialect: u32, path: Text, path_len: usize, answer: *mut bool) -> u32;
    fn typed_path_equal(
        dialect: u32, path: Text, path_len: usize, other: Text, other_len: usize, answer: *mut bool,
    ) -> u32;
    fn typed_path_compare(
        dialect: u32, path: Text, path_len: usize, other: Text, other_len: usize, order: *mut i32,
    ) -> u32;
    fn typed_path_key_words(
        dialect: u32, path: Text, path_len: usize, out: Out, out_size: usize, len: *mut usize,
    ) -> u32;
    fn typed_path_status_text(status: u32, out: Out, out_size: usize, len: *mut usize) -> u32;
}

/// The version of the library that is linked, as 10000 for its first part, 100 for its second and 1 for its third.
#[cfg(test)]
fn version() -> u32 {
    // SAFETY: it is handed nothing.
    unsafe { typed_path_version() }
}

/// Whether this processor can run the library.
pub(crate) fn runs_here() -> bool {
    // SAFETY: it is handed nothing, and runs on each x86-64.
    unsafe { typed_path_runs_here() }
}

/// The dialect that a text looks like.
#[inline]
pub(crate) fn derive(path: &[u8]) -> u32 {
    // SAFETY: the pointer is that of a slice, with its length.
    unsafe { typed_path_derive(path.as_ptr(), path.len()) }
}

/// Calls that tell a part of a path by its place, of one path or of two.
macro_rules! parts {
    ($($name:ident = $call:ident ($($other:ident)?);)*) => {$(
        #[inline]
        pub(crate) fn $name(dialect: u32, path: &[u8] $(, $other: &[u8])?) -> Option<Range<usize>> {
            let mut span = Span::EMPTY;
            // SAFETY: the pointers are those of slices, with their lengths, and of a local.
            let status = unsafe {
                $call(dialect, path.as_ptr(), path.len() $(, $other.as_ptr(), $other.len())?, &mut span)
            };
            (status == status::DONE).then(|| span.range())
        }
    )*};
}

parts! {
    parent = typed_path_parent ();
    file_name = typed_path_file_name ();
    file_stem = typed_path_file_stem ();
    file_prefix = typed_path_file_prefix ();
    extension = typed_path_extension ();
    simplified = typed_path_simplified ();
    strip_prefix = typed_path_strip_prefix (base);
    common_ancestor = typed_path_common_ancestor (other);
}

/// Calls that answer yes or no, of one path or of two.
macro_rules! questions {
    ($($name:ident = $call:ident ($($other:ident)?);)*) => {$(
        #[inline]
        pub(crate) fn $name(dialect: u32, path: &[u8] $(, $other: &[u8])?) -> bool {
            let mut answer = false;
            // SAFETY: the pointers are those of slices, with their lengths, and of a local.
            unsafe {
                $call(dialect, path.as_ptr(), path.len() $(, $other.as_ptr(), $other.len())?, &mut answer)
            };
            answer
        }
    )*};
}

questions! {
    is_absolute = typed_path_is_absolute ();
    has_root = typed_path_has_root ();
    is_valid = typed_path_is_valid ();
    is_valid_name = typed_path_is_valid_name ();
    is_portable = typed_path_is_portable ();
    may_be_device = typed_path_may_be_device ();
    keeps_prefix = typed_path_keeps_prefix ();
    starts_with = typed_path_starts_with (base);
    ends_with = typed_path_ends_with (end);
    is_within = typed_path_is_within (base);
    equal = typed_path_equal (other);
    starts_with_ignore_ascii_case = typed_path_starts_with_ignore_ascii_case (base);
    equal_ignore_ascii_case = typed_path_equal_ignore_ascii_case (other);
}

/// The order of two paths.
#[inline]
pub(crate) fn compare(dialect: u32, path: &[u8], other: &[u8]) -> Ordering {
    let mut order = 0;
    // SAFETY: the pointers are those of slices, with their lengths, and of a local.
    unsafe {
        typed_path_compare(dialect, path.as_ptr(), path.len(), other.as_ptr(), other.len(), &mut order)
    };
    order.cmp(&0)
}

/// The order of two paths in lower case.
#[inline]
pub(crate) fn compare_ignore_ascii_case(dialect: u32, path: &[u8], other: &[u8]) -> Ordering {
    let mut order = 0;
    // SAFETY: the pointers are those of slices, with their lengths, and of a local.
    unsafe {
        typed_path_compare_ignore_ascii_case(
            dialect,
            path.as_ptr(),
            path.len(),
            other.as_ptr(),
            other.len(),
            &mut order,
        )
    };
    order.cmp(&0)
}

/// Where the names of the prefix stand; the second is empty where there is but one.
pub(crate) fn prefix_names(dialect: u32, path: &[u8]) -> Option<(Range<usize>, Range<usize>)> {
    let (mut first, mut second) = (Span::EMPTY, Span::EMPTY);
    // SAFETY: the pointers are those of a slice, with its length, and of two locals.
    let status =
        unsafe { typed_path_prefix_names(dialect, path.as_ptr(), path.len(), &mut first, &mut second) };
    (status == status::DONE).then(|| (first.range(), second.range()))
}

/// How many bytes of a path stay where another is pushed onto it, and the byte that comes behind these, if any.
/// None where the other is merged into the path.
#[inline]
fn push_place(dialect: u32, path: &[u8], other: &[u8]) -> Option<(usize, Option<u8>)> {
    let mut place = Place { kept: 0, separator: 0 };
    // SAFETY: the pointers are those of slices, with their lengths, and of a local.
    let status = unsafe {
        typed_path_push_place(dialect, path.as_ptr(), path.len(), other.as_ptr(), other.len(), &mut place)
    };
    (status == status::DONE).then(|| (place.kept, (place.separator != 0).then_some(place.separator as u8)))
}

/// What a checked call refuses a path for.
#[inline]
pub(crate) fn check(dialect: u32, path: &[u8]) -> Result<(), CheckedPathError> {
    // SAFETY: the pointer is that of a slice, with its length.
    match unsafe { typed_path_check(dialect, path.as_ptr(), path.len()) } {
        status::DONE => Ok(()),
        refused => Err(fault(refused)),
    }
}

/// Why a path is not portable.
#[inline]
pub(crate) fn check_portable(dialect: u32, path: &[u8]) -> Result<(), PortableError> {
    // SAFETY: the pointer is that of a slice, with its length.
    match unsafe { typed_path_check_portable(dialect, path.as_ptr(), path.len()) } {
        status::DONE => Ok(()),
        refused => Err(reason(refused)),
    }
}

/// The fault that one of the statuses from 1 to 4 names.
fn fault(refused: u32) -> CheckedPathError {
    match refused {
        status::INVALID_FILENAME => CheckedPathError::InvalidFilename,
        status::PATH_TRAVERSAL_ATTACK => CheckedPathError::PathTraversalAttack,
        status::UNEXPECTED_PREFIX => CheckedPathError::UnexpectedPrefix,
        status::UNEXPECTED_ROOT => CheckedPathError::UnexpectedRoot,
        other => unexpected(other),
    }
}

/// The reason that one of the statuses from 12 to 17 names.
fn reason(refused: u32) -> PortableError {
    match refused {
        status::HAS_PREFIX => PortableError::Prefix,
        status::FORBIDDEN => PortableError::Forbidden,
        status::DEVICE => PortableError::Device,
        status::ENDING => PortableError::Ending,
        status::TOO_LONG => PortableError::TooLong,
        status::NOT_TEXT => PortableError::NotText,
        other => unexpected(other),
    }
}

#[cold]
fn unexpected(status: u32) -> ! {
    panic!("the archive told the status {status}, which the header does not name for this call")
}

/// The status of a fault, whose text the library has.
pub(crate) fn status_of_fault(fault: &CheckedPathError) -> u32 {
    match fault {
        CheckedPathError::InvalidFilename => status::INVALID_FILENAME,
        CheckedPathError::PathTraversalAttack => status::PATH_TRAVERSAL_ATTACK,
        CheckedPathError::UnexpectedPrefix => status::UNEXPECTED_PREFIX,
        CheckedPathError::UnexpectedRoot => status::UNEXPECTED_ROOT,
    }
}

/// The status of a reason, whose text the library has.
pub(crate) fn status_of_reason(reason: &PortableError) -> u32 {
    match reason {
        PortableError::Prefix => status::HAS_PREFIX,
        PortableError::Forbidden => status::FORBIDDEN,
        PortableError::Device => status::DEVICE,
        PortableError::Ending => status::ENDING,
        PortableError::TooLong => status::TOO_LONG,
        PortableError::NotText => status::NOT_TEXT,
    }
}

/// The status of refused memory, whose text the library has.
pub(crate) const STATUS_OF_MEMORY: u32 = status::OUT_OF_MEMORY;

/// Hands on what the library says of a status.
pub(crate) fn with_status_text<R>(status: u32, then: impl FnOnce(&str) -> R) -> R {
    const BOUND: usize = 64;
    let put = |out, size, len: &mut usize| {
        // SAFETY: the room is that of a local, with its size.
        unsafe { typed_path_status_text(status, out, size, len) }
    };
    into_room::<BOUND, _>(put, |text| then(core::str::from_utf8(text).unwrap_or_default()))
        .unwrap_or_else(|told| unexpected(told))
}

/// Has an answer put into a room of `N` bytes, and hands it on; else the status that was told.
#[inline]
fn into_room<const N: usize, R>(
    put: impl FnOnce(Out, usize, &mut usize) -> u32, then: impl FnOnce(&[u8]) -> R,
) -> Result<R, u32> {
    let mut room = MaybeUninit::<[u8; N]>::uninit();
    let mut len = 0;
    match put(room.as_mut_ptr().cast(), N, &mut len) {
        // SAFETY: `DONE` says that the first `len` bytes were put, and that these are no more than the room has.
        status::DONE => Ok(then(unsafe { core::slice::from_raw_parts(room.as_ptr().cast(), len) })),
        told => Err(told),
    }
}

/// Has an answer put into new memory of the bound of its call; else the status that was told.
#[inline]
fn made(bound: usize, put: impl FnOnce(Out, usize, &mut usize) -> u32) -> Result<Vec<u8>, u32> {
    let mut out = Vec::new();
    if out.try_reserve_exact(bound).is_err() {
        return Err(status::OUT_OF_MEMORY);
    }
    let mut len = 0;
    match put(out.as_mut_ptr(), out.capacity(), &mut len) {
        status::DONE => {
            // SAFETY: `DONE` says that the first `len` bytes were put, and that these are no more than the room has.
            unsafe { out.set_len(len) };
            Ok(out)
        }
        told => Err(told),
    }
}

/// Puts an answer in the place of the bytes of `path`, in its own memory if that is enough.
#[inline]
fn put_back(path: &mut Vec<u8>, made: &[u8]) -> Result<(), OutOfMemory> {
    path.try_reserve(made.len().saturating_sub(path.len())).map_err(|_| OutOfMemory)?;
    path.clear();
    path.extend_from_slice(made);
    Ok(())
}

/// What calls that make a path refuse for.
pub(crate) trait Refusal: From<OutOfMemory> {
    /// That of a status which is not that of memory.
    fn of_status(status: u32) -> Self;
}

impl Refusal for OutOfMemory {
    fn of_status(status: u32) -> Self {
        unexpected(status)
    }
}

impl Refusal for TryError<CheckedPathError> {
    fn of_status(status: u32) -> Self {
        TryError::Refused(fault(status))
    }
}

impl Refusal for TryError<JoinError> {
    fn of_status(status: u32) -> Self {
        TryError::Refused(match status {
            status::PATH_TRAVERSAL_ATTACK | status::UNEXPECTED_ROOT => JoinError::Checked(fault(status)),
            other => JoinError::Portable(reason(other)),
        })
    }
}

#[cold]
fn refusal<E: Refusal>(status: u32) -> E {
    if status == status::OUT_OF_MEMORY { OutOfMemory.into() } else { E::of_status(status) }
}

/// The bytes that a call of two texts needs at most, with the NUL: those of both, and some more.
#[inline]
fn bound(path: &[u8], other: &[u8], more: usize) -> usize {
    // Each has at most `isize::MAX` bytes, so the sum of two does not wrap.
    (path.len() + other.len()).saturating_add(more)
}

/// Calls that make a path of two texts, with what they refuse for. A second name is of the same which changes the first
/// text, and refuses for nothing but memory.
macro_rules! makers {
    ($($name:ident $($change:ident)? = $call:ident, $more:literal -> $Refusal:ty;)*) => {$(
        #[inline]
        pub(crate) fn $name(dialect: u32, path: &[u8], other: &[u8]) -> Result<Vec<u8>, $Refusal> {
            // SAFETY: the pointers are those of slices, with their lengths, and of new memory.
            made(bound(path, other, $more), |out, size, len| unsafe {
                $call(dialect, path.as_ptr(), path.len(), other.as_ptr(), other.len(), out, size, len)
            })
            .map_err(refusal)
        }

        $(
            pub(crate) fn $change(dialect: u32, path: &mut Vec<u8>, other: &[u8]) -> Result<(), OutOfMemory> {
                let (text, text_len) = (path.as_ptr(), path.len());
                // SAFETY: the pointers are those of slices, with their lengths, and of a room of its own. The path is
                // changed when the call is over.
                let put = |out, size, len: &mut usize| unsafe {
                    $call(dialect, text, text_len, other.as_ptr(), other.len(), out, size, len)
                };
                let bound = bound(path, other, $more);
                if bound <= ROOM {
                    into_room::<ROOM, _>(put, |made| put_back(path, made)).map_err(refusal::<OutOfMemory>)?
                } else {
                    put_back(path, &made(bound, put).map_err(refusal::<OutOfMemory>)?)
                }
            }
        )?
    )*};
}

/// Up to so many bytes an answer that replaces a path is put on the stack.
const ROOM: usize = 256;

makers! {
    merge merge_into = typed_path_join, 4 -> OutOfMemory;
    join_portable = typed_path_join_portable, 4 -> TryError<JoinError>;
    resolve_checked = typed_path_resolve_checked, 5 -> TryError<CheckedPathError>;
    with_file_name set_file_name = typed_path_with_file_name, 4 -> OutOfMemory;
    with_extension = typed_path_with_extension, 2 -> OutOfMemory;
    with_added_extension append_extension = typed_path_with_added_extension, 2 -> OutOfMemory;
}

/// Calls that make a path of one text, or of that and a number.
macro_rules! makers_of_one {
    ($($name:ident = $call:ident ($($other:ident)?) -> $Refusal:ty;)*) => {$(
        #[inline]
        pub(crate) fn $name(dialect: u32, path: &[u8] $(, $other: u32)?) -> Result<Vec<u8>, $Refusal> {
            // SAFETY: the pointers are those of a slice, with its length, and of new memory.
            made(bound(path, b"", 2), |out, size, len| unsafe {
                $call(dialect, path.as_ptr(), path.len() $(, $other)?, out, size, len)
            })
            .map_err(refusal)
        }
    )*};
}

makers_of_one! {
    normalize = typed_path_normalize () -> OutOfMemory;
    clean = typed_path_clean () -> OutOfMemory;
    to_ascii_lowercase = typed_path_to_ascii_lowercase () -> OutOfMemory;
    convert = typed_path_convert (other) -> OutOfMemory;
    convert_checked = typed_path_convert_checked (other) -> TryError<CheckedPathError>;
}

/// The path that leads from a base to a path; none where there is none.
pub(crate) fn relative_to(dialect: u32, path: &[u8], base: &[u8]) -> Result<Option<Vec<u8>>, OutOfMemory> {
    let bound = bound(base, base, 4).saturating_add(path.len());
    // SAFETY: the pointers are those of slices, with their lengths, and of new memory.
    let made = made(bound, |out, size, len| unsafe {
        typed_path_relative_to(dialect, path.as_ptr(), path.len(), base.as_ptr(), base.len(), out, size, len)
    });
    match made {
        Ok(made) => Ok(Some(made)),
        Err(status::OUT_OF_MEMORY) => Err(OutOfMemory),
        Err(_) => Ok(None),
    }
}

/// The normal path, read from a directory of Unix where it is not absolute; none where it stays ambiguous.
#[cfg(feature = "std")]
pub(crate) fn absolutize(
    dialect: u32, path: &[u8], directory: &[u8],
) -> Result<Option<Vec<u8>>, OutOfMemory> {
    // SAFETY: the pointers are those of slices, with their lengths, and of new memory.
    let made = made(bound(path, directory, 4), |out, size, len| unsafe {
        typed_path_absolutize(
            dialect,
            path.as_ptr(),
            path.len(),
            directory.as_ptr(),
            directory.len(),
            out,
            size,
            len,
        )
    });
    match made {
        Ok(made) => Ok(Some(made)),
        Err(status::OUT_OF_MEMORY) => Err(OutOfMemory),
        Err(_) => Ok(None),
    }
}

/// The normal path, read from a directory of a dialect where it is not absolute; none where it stays ambiguous.
pub(crate) fn absolutize_from(
    dialect: u32, path: &[u8], other: u32, directory: &[u8],
) -> Result<Option<Vec<u8>>, OutOfMemory> {
    // SAFETY: the pointers are those of slices, with their lengths, and of new memory.
    let made = made(bound(path, directory, 4), |out, size, len| unsafe {
        typed_path_absolutize_from(
            dialect,
            path.as_ptr(),
            path.len(),
            other,
            directory.as_ptr(),
            directory.len(),
            out,
            size,
            len,
        )
    });
    match made {
        Ok(made) => Ok(Some(made)),
        Err(status::OUT_OF_MEMORY) => Err(OutOfMemory),
        Err(_) => Ok(None),
    }
}

/// A path with another pushed onto it.
#[inline]
pub(crate) fn join(dialect: u32, path: &[u8], other: &[u8]) -> Result<Vec<u8>, OutOfMemory> {
    let Some((kept, separator)) = push_place(dialect, path, other) else {
        return merge(dialect, path, other);
    };
    let mut out = Vec::new();
    out.try_reserve_exact(kept + separator.is_some() as usize + other.len()).map_err(|_| OutOfMemory)?;
    out.extend_from_slice(&path[..kept]);
    out.extend(separator);
    out.extend_from_slice(other);
    Ok(out)
}

/// Pushes a path onto another, in its own memory.
#[inline]
pub(crate) fn push(dialect: u32, path: &mut Vec<u8>, other: &[u8]) -> Result<(), OutOfMemory> {
    let Some((kept, separator)) = push_place(dialect, path, other) else {
        return merge_into(dialect, path, other);
    };
    let length = kept + separator.is_some() as usize + other.len();
    path.try_reserve(length.saturating_sub(path.len())).map_err(|_| OutOfMemory)?;
    path.truncate(kept);
    path.extend(separator);
    path.extend_from_slice(other);
    Ok(())
}

/// A path with another pushed onto it that `check` lets through: what `typed_path_join_checked` makes, by two calls
/// that take no memory.
#[inline]
pub(crate) fn join_checked(
    dialect: u32, path: &[u8], other: &[u8],
) -> Result<Vec<u8>, TryError<CheckedPathError>> {
    check(dialect, other).map_err(TryError::Refused)?;
    Ok(join(dialect, path, other)?)
}

/// The same, in the memory of the path.
#[inline]
pub(crate) fn push_checked(
    dialect: u32, path: &mut Vec<u8>, other: &[u8],
) -> Result<(), TryError<CheckedPathError>> {
    check(dialect, other).map_err(TryError::Refused)?;
    Ok(push(dialect, path, other)?)
}

/// Cuts a path behind its stem, and puts a dot and an extension there, unless that is empty: what
/// `typed_path_with_extension` makes, in the memory of the path. Whether there is a file name.
pub(crate) fn set_extension(dialect: u32, path: &mut Vec<u8>, extension: &[u8]) -> Result<bool, OutOfMemory> {
    let Some(stem) = file_stem(dialect, path) else {
        return Ok(false);
    };
    let dot: &[u8] = if extension.is_empty() { b"" } else { b"." };
    let length = stem.end + dot.len() + extension.len();
    path.try_reserve(length.saturating_sub(path.len())).map_err(|_| OutOfMemory)?;
    path.truncate(stem.end);
    path.extend_from_slice(dot);
    path.extend_from_slice(extension);
    Ok(true)
}

/// Puts one extension more; whether there is a file name.
pub(crate) fn add_extension(dialect: u32, path: &mut Vec<u8>, extension: &[u8]) -> Result<bool, OutOfMemory> {
    let there = file_name(dialect, path).is_some();
    if there {
        append_extension(dialect, path, extension)?;
    }
    Ok(there)
}

/// Hands on the words of a path's key.
#[inline]
pub(crate) fn with_key_words<R>(dialect: u32, path: &[u8], then: impl FnOnce(&[u8]) -> R) -> R {
    if key_bound(path) <= KEY_ROOM {
        // SAFETY: the pointers are those of a slice, with its length, and of a room of the bound.
        let put = |out, size, len: &mut usize| unsafe {
            typed_path_key_words(dialect, path.as_ptr(), path.len(), out, size, len)
        };
        into_room::<KEY_ROOM, _>(put, then).unwrap_or_else(|told| unexpected(told))
    } else {
        then(&or_end(key_words(dialect, path)))
    }
}

/// Up to so many bytes the words of a key are put on the stack.
const KEY_ROOM: usize = 1024;

fn key_bound(path: &[u8]) -> usize {
    bound(path, path, 2)
}

/// The words of a path's key, in new memory of their length.
pub(crate) fn key_words(dialect: u32, path: &[u8]) -> Result<Vec<u8>, OutOfMemory> {
    // SAFETY: the pointers are those of a slice, with its length, and of the room that is handed in.
    let put = |out, size, len: &mut usize| unsafe {
        typed_path_key_words(dialect, path.as_ptr(), path.len(), out, size, len)
    };
    made(key_bound(path), put).map_err(refusal)
}

/// What was made; where memory was refused the program ends as it does in Rust.
#[inline]
pub(crate) fn or_end<T>(made: Result<T, OutOfMemory>) -> T {
    match made {
        Ok(made) => made,
        Err(OutOfMemory) => out_of_memory(),
    }
}

/// The same of a call that refuses for more.
#[inline]
pub(crate) fn or_refused<T, E>(made: Result<T, TryError<E>>) -> Result<T, E> {
    match made {
        Ok(made) => Ok(made),
        Err(TryError::Refused(refused)) => Err(refused),
        Err(TryError::OutOfMemory) => out_of_memory(),
    }
}

/// The library does not tell how much memory it was refused, so the layout names one byte.
#[cold]
fn out_of_memory() -> ! {
    alloc::alloc::handle_alloc_error(core::alloc::Layout::new::<u8>())
}

#[cfg(test)]
mod tests {
    use super::*;

    #[test]
    fn the_archive_has_the_version_of_the_package() {
        let part = |text: &str| text.parse::<u32>().unwrap();
        let [major, minor] = [env!("CARGO_PKG_VERSION_MAJOR"), env!("CARGO_PKG_VERSION_MINOR")].map(part);
        assert_eq!(version() / 100, major * 100 + minor);
    }

    /// What is put together here is what one call of the library makes.
    #[test]
    fn what_is_put_together_is_what_calls_make() {
        const PATHS: &str = r"|.|a|..|/|a/..|a/../..|/a|\a|C:\a|C:a|C:|con|..\x|a/b|a.b/|a.b.c//.|.a|a.|...|x.日|\\s\h|\\s|\\?\C:\a.b|\\?\C:|\\?\UNC\s\h\|//?/C:/a|a\.\b|a/|?|a\..";
        for dialect in [UNIX, WINDOWS] {
            for (path, other) in
                PATHS.split('|').flat_map(|path| PATHS.split('|').map(move |other| (path, other)))
            {
                let (path, other) = (path.as_bytes(), other.as_bytes());
                // SAFETY: the pointers are those of slices, with their lengths, and of new memory.
                let joined = made(bound(path, other, 4), |out, size, len| unsafe {
                    let (path_len, other_len) = (path.len(), other.len());
                    typed_path_join_checked(
                        dialect,
                        path.as_ptr(),
                        path_len,
                        other.as_ptr(),
                        other_len,
                        out,
                        size,
                        len,
                    )
                });
                assert_eq!(join_checked(dialect, path, other), joined.map_err(refusal), "{path:?} {other:?}");
                let mut extended = path.to_vec();
                let is_named = file_name(dialect, path).is_some();
                assert_eq!(set_extension(dialect, &mut extended, other), Ok(is_named));
                assert_eq!(with_extension(dialect, path, other), Ok(extended), "{path:?} {other:?}");
            }
        }
    }
}
