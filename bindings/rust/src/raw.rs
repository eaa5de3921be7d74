//! The calls of the archive, as `bindings/receiver.h` declares them. A slice is a pointer and a length. The caller sees to it that each
//! pointer is valid for its length, and that a buffer that is written overlaps no other of the call; a call keeps no pointer. It answers one
//! number, whose lowest byte is 128 or more for a refusal.

extern "C" {
    pub fn receiver_encode_packed(
        m: usize,
        t: usize,
        n: usize,
        message: *const u8,
        message_length: usize,
        codeword: *mut u8,
        codeword_length: usize,
    ) -> u64;
    pub fn receiver_decode_hard_packed(
        m: usize,
        t: usize,
        n: usize,
        bits: *const u8,
        bits_length: usize,
        codeword: *mut u8,
        codeword_length: usize,
    ) -> u64;
    pub fn receiver_decode_soft_packed(
        m: usize,
        t: usize,
        n: usize,
        depth: usize,
        symbols: *const u8,
        symbols_length: usize,
        codeword: *mut u8,
        codeword_length: usize,
    ) -> u64;
    pub fn receiver_check_ladder_packed(edges: *const f32, edges_length: usize) -> u64;
    pub fn receiver_quantise_packed(
        edges: *const f32,
        edges_length: usize,
        kinds: *const u8,
        kinds_length: usize,
        levels: *const f32,
        levels_length: usize,
        symbols: *mut u8,
        symbols_length: usize,
    ) -> u64;
    pub fn receiver_open_take_packed(take: *const u8, take_length: usize) -> u64;
    pub fn receiver_read_take_packed(
        take: *const u8,
        take_length: usize,
        messages: *mut u8,
        messages_length: usize,
        marks: *mut u8,
        marks_length: usize,
    ) -> u64;
    pub fn receiver_strip_length_packed(take: *const u8, take_length: usize) -> u64;
    pub fn receiver_print_take_packed(take: *const u8, take_length: usize, strip: *mut u8, strip_length: usize) -> u64;
}
