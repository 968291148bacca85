//! The proved decoders, from `crates/speed/out/libspeed.a`. A slice passes as a pointer and a length.
unsafe extern "C" {
    fn decode_ascii_hex(input: *const u8, length: usize, output: *mut u8, room: usize) -> usize;
    fn decode_ascii_85(input: *const u8, length: usize, output: *mut u8, room: usize) -> usize;
    fn decode_eexec(input: *const u8, length: usize, output: *mut u8, room: usize) -> usize;
    fn decode_subfile(mark: *const u8, size: usize, input: *const u8, length: usize, output: *mut u8, room: usize) -> usize;
    fn decode_four_deep(mark: *const u8, size: usize, input: *const u8, length: usize, output: *mut u8, room: usize) -> usize;
}

pub fn ascii_hex(input: &[u8], output: &mut [u8]) -> usize {
    unsafe { decode_ascii_hex(input.as_ptr(), input.len(), output.as_mut_ptr(), output.len()) }
}

pub fn ascii_85(input: &[u8], output: &mut [u8]) -> usize {
    unsafe { decode_ascii_85(input.as_ptr(), input.len(), output.as_mut_ptr(), output.len()) }
}

pub fn eexec(input: &[u8], output: &mut [u8]) -> usize {
    unsafe { decode_eexec(input.as_ptr(), input.len(), output.as_mut_ptr(), output.len()) }
}

pub fn subfile(mark: &[u8], input: &[u8], output: &mut [u8]) -> usize {
    unsafe { decode_subfile(mark.as_ptr(), mark.len(), input.as_ptr(), input.len(), output.as_mut_ptr(), output.len()) }
}

pub fn four_deep(mark: &[u8], input: &[u8], output: &mut [u8]) -> usize {
    unsafe { decode_four_deep(mark.as_ptr(), mark.len(), input.as_ptr(), input.len(), output.as_mut_ptr(), output.len()) }
}
