//! The library's calls, with slices for pointers and lengths; `include/arib_text.h` tells them. A
//! call that is refused writes its buffers and counts too. The repository's own comparison goes
//! through them.

/// How many numbers an issue is: offset, kind, two fields, position.
pub const ISSUE_NUMBERS: usize = 5;

/// What a call is given, its buffers aside. The options are 01's numbers.
#[derive(Clone, Copy)]
pub struct Call<'a> {
    pub cells: &'a [u16],
    pub initial: u32,
    pub width: u32,
    pub input: &'a [u8],
}

/// Defines the calls that are lent buffers and counts, behind the values in brackets. Each answers
/// with the number of its refusal, or 0.
macro_rules! calls {
    ($(
        $(#[$doc:meta])*
        $name:ident = $symbol:ident$([$($value:ident: $type:ty),*])?($($lent:ident: $number:ty),*);
    )*) => {
        unsafe extern "C" {
            $(fn $symbol(
                cells: *const u16,
                cells_len: usize,
                initial: u32,
                width: u32,
                input: *const u8,
                input_len: usize,
                $($($value: $type,)*)?
                $($lent: *mut $number, _: usize,)*
                counts: *mut usize,
                counts_len: usize,
            ) -> u32;)*
        }

        $($(#[$doc])*
        #[inline]
        pub fn $name(
            call: Call,
            $($($value: $type,)*)?
            $($lent: &mut [$number],)*
            counts: &mut [usize],
        ) -> u32 {
            // SAFETY: each pointer comes with the length of its slice, and no two slices overlap.
            unsafe {
                $symbol(
                    call.cells.as_ptr(),
                    call.cells.len(),
                    call.initial,
                    call.width,
                    call.input.as_ptr(),
                    call.input.len(),
                    $($($value,)*)?
                    $($lent.as_mut_ptr(), $lent.len(),)*
                    counts.as_mut_ptr(),
                    counts.len(),
                )
            }
        })*
    };
}

calls! {
    /// Counts: place, bytes of text, issues, charge, private-use characters.
    decode = arib_decode(text: u8, issues: u32);
    /// Counts: place, bytes of the coding, gap. The input is the text.
    encode = arib_encode(store: u32, coding: u8);
    /// Counts: place, bytes of the key, charge.
    key = arib_key(key: u8);
    /// Counts: place, 1 for a clean title and 0 for another.
    clean = arib_clean();
    /// Counts: the first four of `decode` in buffers that are large enough.
    measure = arib_measure();
    /// Counts: place, bytes of the key, charge. The input is the title. A refusal leaves the store
    /// as it was.
    catalogue_add = arib_catalogue_add[number: u32](store: u8, key: u8);
    /// Counts: place, of a refusal. A refusal leaves the store as it was.
    bookmark_set = arib_bookmark_set[place: usize, name: u32](store: u32);
}

unsafe extern "C" {
    fn arib_unknown_escape(
        input: *const u8,
        input_len: usize,
        start: usize,
        length: usize,
        part: *mut usize,
        part_len: usize,
    ) -> usize;
}

/// The length of the part of the input; `part` gets its start and length.
#[inline]
pub fn unknown_escape(input: &[u8], start: usize, length: usize, part: &mut [usize]) -> usize {
    let (bytes, places) = (input.as_ptr(), part.as_mut_ptr());
    // SAFETY: both pointers come with the lengths of their slices, which do not overlap.
    unsafe { arib_unknown_escape(bytes, input.len(), start, length, places, part.len()) }
}

unsafe extern "C" {
    fn arib_catalogue_remove(store: *mut u8, store_len: usize, number: u32) -> u32;

    fn arib_catalogue_find(
        store: *const u8,
        store_len: usize,
        key: *const u8,
        key_len: usize,
        counts: *mut usize,
        counts_len: usize,
    ) -> u32;
}

/// A refusal leaves the store as it was.
#[inline]
pub fn catalogue_remove(store: &mut [u8], number: u32) -> u32 {
    // SAFETY: the pointer comes with the length of its slice.
    unsafe { arib_catalogue_remove(store.as_mut_ptr(), store.len(), number) }
}

/// Counts: place, entries that have the key, the smallest of their numbers.
#[inline]
pub fn catalogue_find(store: &[u8], key: &[u8], counts: &mut [usize]) -> u32 {
    let (bytes, sought, found) = (store.as_ptr(), key.as_ptr(), counts.as_mut_ptr());
    // SAFETY: each pointer comes with the length of its slice. The call writes only the counts,
    // which no other slice overlaps.
    unsafe { arib_catalogue_find(bytes, store.len(), sought, key.len(), found, counts.len()) }
}

unsafe extern "C" {
    fn arib_bookmark_return(
        cells: *const u16,
        cells_len: usize,
        initial: u32,
        width: u32,
        input: *const u8,
        input_len: usize,
        name: u32,
        store: *const u32,
        store_len: usize,
        text: *mut u8,
        text_len: usize,
        issues: *mut u32,
        issues_len: usize,
        counts: *mut usize,
        counts_len: usize,
    ) -> u32;
}

/// Counts: those of `decode`, of the rest; the charge is the whole reading's.
#[inline]
pub fn bookmark_return(
    call: Call,
    name: u32,
    store: &[u32],
    text: &mut [u8],
    issues: &mut [u32],
    counts: &mut [usize],
) -> u32 {
    // SAFETY: each pointer comes with the length of its slice. The call writes only the buffers and
    // the counts, which no other slice overlaps.
    unsafe {
        arib_bookmark_return(
            call.cells.as_ptr(),
            call.cells.len(),
            call.initial,
            call.width,
            call.input.as_ptr(),
            call.input.len(),
            name,
            store.as_ptr(),
            store.len(),
            text.as_mut_ptr(),
            text.len(),
            issues.as_mut_ptr(),
            issues.len(),
            counts.as_mut_ptr(),
            counts.len(),
        )
    }
}
