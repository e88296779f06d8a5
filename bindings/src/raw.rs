//! The calls as the library exports them: a slice is a pointer and a count. No two slices of a call may overlap.

extern "C" {
    pub fn iarwennol_open_compressor(
        w: *mut u32, wn: usize, h: *mut u16, hn: usize, b: *mut u8, bn: usize,
        n: u32, k: u32,
    ) -> u64;
    pub fn iarwennol_send(
        w: *mut u32, wn: usize, h: *mut u16, hn: usize, b: *mut u8, bn: usize,
        packet: *const u8, length: usize, out: *mut u8, room: usize,
    ) -> u64;
    pub fn iarwennol_request(
        w: *mut u32, wn: usize, h: *mut u16, hn: usize, b: *mut u8, bn: usize,
        report: *const u8, length: usize,
    ) -> u64;
    pub fn iarwennol_open_decompressor(
        w: *mut u32, wn: usize, h: *mut u16, hn: usize, b: *mut u8, bn: usize,
        n: u32, k: u32,
    ) -> u64;
    pub fn iarwennol_receive(
        w: *mut u32, wn: usize, h: *mut u16, hn: usize, b: *mut u8, bn: usize,
        kind: u32, packet: *const u8, length: usize, out: *mut u8, room: usize,
    ) -> u64;
    pub fn iarwennol_report(
        w: *const u32, wn: usize, h: *const u16, hn: usize, b: *const u8, bn: usize,
        out: *mut u8, room: usize,
    ) -> u64;
    pub fn iarwennol_save(
        w: *const u32, wn: usize, h: *const u16, hn: usize, b: *const u8, bn: usize,
        out: *mut u8, room: usize,
    ) -> u64;
    pub fn iarwennol_load(
        w: *mut u32, wn: usize, h: *mut u16, hn: usize, b: *mut u8, bn: usize,
        file: *const u8, length: usize,
    ) -> u64;
    pub fn iarwennol_endpoint_open(
        cw: *mut u32, cwn: usize, ch: *mut u16, chn: usize, cb: *mut u8, cbn: usize,
        dw: *mut u32, dwn: usize, dh: *mut u16, dhn: usize, db: *mut u8, dbn: usize,
        totals: *mut u32, tn: usize, n: u32, k: u32,
    ) -> u64;
    pub fn iarwennol_endpoint_wire(
        cw: *mut u32, cwn: usize, ch: *mut u16, chn: usize, cb: *mut u8, cbn: usize,
        totals: *mut u32, tn: usize, packet: *const u8, length: usize, out: *mut u8, room: usize,
    ) -> u64;
    pub fn iarwennol_endpoint_radio(
        cw: *mut u32, cwn: usize, ch: *mut u16, chn: usize, cb: *mut u8, cbn: usize,
        dw: *mut u32, dwn: usize, dh: *mut u16, dhn: usize, db: *mut u8, dbn: usize,
        totals: *mut u32, tn: usize, kind: u32, packet: *const u8, length: usize, out: *mut u8, room: usize,
    ) -> u64;
    pub fn iarwennol_endpoint_report(
        dw: *const u32, dwn: usize, dh: *const u16, dhn: usize, db: *const u8, dbn: usize,
        totals: *mut u32, tn: usize, out: *mut u8, room: usize,
    ) -> u64;
}
