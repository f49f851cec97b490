//! The calls of `libcontroller.a` and `libcapi.a` as `wegrulsta.h` declares them, and `wegrulsta_bench` of `libcapi_bench.a`:
//! each slice is a pointer and a length, structs go by value. `crates/controller_c` and `crates/capi_c` have their contracts. What a caller
//! owes: pointers that are valid and aligned for their lengths, and what a call may write overlaps nothing else that it is handed. Any numbers and octets get an answer.

mod types;

pub use types::*;

extern "C" {
    pub fn wegrulsta_start() -> State;
    pub fn wegrulsta_packet(
        profile: Profile,
        opcodes: *const u16,
        opcodes_len: usize,
        answers: *const u8,
        answers_len: usize,
        bits: *const u16,
        bits_len: usize,
        s: State,
        pool: *mut u8,
        pool_len: usize,
        address: *const [u8; 6],
        random: u64,
        packet: *const u8,
        packet_len: usize,
        out: *mut u8,
        out_len: usize,
    ) -> Told;
    pub fn wegrulsta_take(
        profile: Profile,
        s: State,
        pool: *const u8,
        pool_len: usize,
        handle: u16,
        max: usize,
        out: *mut u8,
        out_len: usize,
    ) -> Took;

    pub fn wegrulsta_open(profile: Profile, s: State, handle: u16, interval: u16, latency: u16, timeout: u16) -> Changed;
    pub fn wegrulsta_accept(
        profile: Profile,
        s: State,
        handle: u16,
        peer_type: u8,
        peer: *const [u8; 6],
        interval: u16,
        latency: u16,
        timeout: u16,
        sca: u8,
        out: *mut u8,
        out_len: usize,
    ) -> Told;
    pub fn wegrulsta_update(
        profile: Profile,
        s: State,
        handle: u16,
        interval: u16,
        latency: u16,
        timeout: u16,
        out: *mut u8,
        out_len: usize,
    ) -> Told;
    pub fn wegrulsta_request_key(
        profile: Profile,
        s: State,
        handle: u16,
        random: *const [u8; 8],
        ediv: u16,
        out: *mut u8,
        out_len: usize,
    ) -> Told;
    pub fn wegrulsta_completed(profile: Profile, s: State, handle: u16, count: u16, out: *mut u8, out_len: usize) -> Told;
    pub fn wegrulsta_drop(profile: Profile, s: State, count: u16) -> Changed;
    pub fn wegrulsta_remote_disconnect(profile: Profile, s: State, handle: u16, reason: u8, out: *mut u8, out_len: usize)
        -> Told;
    pub fn wegrulsta_complete_disconnect(profile: Profile, s: State, handle: u16, out: *mut u8, out_len: usize) -> Told;
    pub fn wegrulsta_advertising_timeout(profile: Profile, s: State, out: *mut u8, out_len: usize) -> Told;

    pub fn wegrulsta_has_connection(profile: Profile, s: State, handle: u16) -> Connected;
    pub fn wegrulsta_terminating(profile: Profile, s: State, handle: u16) -> Terminating;
    pub fn wegrulsta_free_handle(profile: Profile, s: State) -> FreeHandle;
    pub fn wegrulsta_buffers_in_use(profile: Profile, s: State) -> InUse;
    pub fn wegrulsta_row_bitmap(
        opcodes: *const u16,
        opcodes_len: usize,
        answers: *const u8,
        answers_len: usize,
        bits: *const u16,
        bits_len: usize,
    ) -> Bitmap;

    pub fn wegrulsta_write_event(code: u8, params: *const u8, params_len: usize, out: *mut u8, out_len: usize) -> Wrote;
    pub fn wegrulsta_write_acl(
        handle: u16,
        boundary: u8,
        load: *const u8,
        load_len: usize,
        out: *mut u8,
        out_len: usize,
    ) -> Wrote;
    pub fn wegrulsta_write_command_complete(
        num: u8,
        op: u16,
        return_params: *const u8,
        return_params_len: usize,
        out: *mut u8,
        out_len: usize,
    ) -> Wrote;
    pub fn wegrulsta_write_command_status(num: u8, status: u8, op: u16, out: *mut u8, out_len: usize) -> Wrote;
    pub fn wegrulsta_write_completed_packets(
        handles: *const u16,
        handles_len: usize,
        counts: *const u16,
        counts_len: usize,
        out: *mut u8,
        out_len: usize,
    ) -> Wrote;
    pub fn wegrulsta_write_le_meta(subevent: u8, params: *const u8, params_len: usize, out: *mut u8, out_len: usize) -> Wrote;
    pub fn wegrulsta_read_command(packet: *const u8, packet_len: usize) -> ReadCommand;
    pub fn wegrulsta_read_acl(packet: *const u8, packet_len: usize) -> ReadAcl;
    pub fn wegrulsta_opcode(ogf: u16, ocf: u16) -> u16;
    pub fn wegrulsta_is_async(op: u16) -> bool;
    pub fn wegrulsta_mask_has(mask: u64, bit: u32) -> MaskHas;
    pub fn wegrulsta_set_bit(map: *mut u8, map_len: usize, bit: usize);

    pub fn wegrulsta_packet_length(bytes: *const u8, bytes_len: usize) -> PacketLength;
    pub fn wegrulsta_stream_start() -> Stream;
    pub fn wegrulsta_stream_feed(
        stream: Stream,
        buffer: *mut u8,
        buffer_len: usize,
        bytes: *const u8,
        bytes_len: usize,
    ) -> StreamFed;
    pub fn wegrulsta_stream_packet(stream: Stream, buffer: *const u8, buffer_len: usize, at: usize) -> usize;

    pub fn wegrulsta_encrypt(key: *const [u8; 16], block: *const [u8; 16], out: *mut [u8; 16]);

    pub fn wegrulsta_bench(input: *const u8, input_len: usize, out: *mut u8, out_len: usize) -> usize;
}
