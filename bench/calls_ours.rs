//! The exported functions of crates/bench: each starts a terminal on what is lent and makes its call `turns` times.

use crate::calls_scene::Lent;

/// All of them are lent the text, the store and the areas, and behind these what stands here.
macro_rules! exported {
    ($($symbol:ident($($more:ident: $kind:ty),*);)*) => {
        extern "C" {
            $(fn $symbol(turns: u32, text: *const u8, text_length: usize, store: *mut u8, store_length: usize, arena: *mut u8, arena_length: usize,
                tables: *mut u8, tables_length: usize, screens: *mut u8, screens_length: usize $(, $more: $kind)*) -> u32;)*
        }
    };
}

exported! {
    virpulens_bench_start();
    virpulens_bench_key(buffer: *mut u8, length: usize, partition: u32, byte: u8, request: u32);
    virpulens_bench_key_read_next(buffer: *mut u8, length: usize, partition: u32, byte: u8, request: u32);
    virpulens_bench_read_random(buffer: *mut u8, length: usize, partition: u32, offset: u32, request: u32);
    virpulens_bench_write_next(partition: u32, request: u32, bytes: *const u8, length: usize);
    virpulens_bench_write_random(partition: u32, offset: u32, request: u32, bytes: *const u8, length: usize);
    virpulens_bench_load(buffer: *mut u8, length: usize, partition: u32, selector: u32, offset: u32);
    virpulens_bench_store(partition: u32, selector: u32, offset: u32, bytes: *const u8, length: usize);
    virpulens_bench_flush(partition: u32, selector: u32, taken: u32);
    virpulens_bench_configuration(buffer: *mut u8, length: usize, partition: u32);
    virpulens_bench_logout_login(partition: u32, name: *const u8, name_length: usize, password: *const u8, password_length: usize);
    virpulens_bench_logout(partition: u32);
    virpulens_bench_who(buffer: *mut u8, length: usize, partition: u32, name: *const u8, name_length: usize, password: *const u8, password_length: usize);
    virpulens_bench_set_password(partition: u32, name: *const u8, name_length: usize, password: *const u8, password_length: usize, taken: u32,
        changed: *const u8, changed_length: usize);
    virpulens_bench_shutdown(partition: u32, message: *const u8, length: usize);
    virpulens_bench_powerdown(partition: u32);
}

/// The lengths are those of the vectors, no two of which overlap, and a function keeps nothing of what it was lent.
macro_rules! call {
    ($symbol:ident, $l:ident, $turns:expr $(, $more:expr)*) => {
        unsafe {
            $symbol($turns, $l.text.as_ptr(), $l.text.len(), $l.store.as_mut_ptr(), $l.store.len(), $l.arena.as_mut_ptr(), $l.arena.len(),
                $l.tables.as_mut_ptr(), $l.tables.len(), $l.screens.as_mut_ptr(), $l.screens.len() $(, $more)*)
        }
    };
}

pub fn start(l: &mut Lent, turns: u32) -> u32 {
    call!(virpulens_bench_start, l, turns)
}

pub fn key(l: &mut Lent, turns: u32) -> u32 {
    call!(virpulens_bench_key, l, turns, l.buffer.as_mut_ptr(), l.buffer.len(), 0, b'k', 1)
}

pub fn key_read_next(l: &mut Lent, turns: u32) -> u32 {
    call!(
        virpulens_bench_key_read_next,
        l,
        turns,
        l.buffer.as_mut_ptr(),
        l.buffer.len(),
        0,
        b'k',
        1
    )
}

pub fn read_random(l: &mut Lent, turns: u32) -> u32 {
    call!(
        virpulens_bench_read_random,
        l,
        turns,
        l.buffer.as_mut_ptr(),
        l.buffer.len(),
        0,
        40,
        l.buffer.len() as u32
    )
}

pub fn write_next(l: &mut Lent, turns: u32) -> u32 {
    call!(
        virpulens_bench_write_next,
        l,
        turns,
        0,
        l.bytes.len() as u32,
        l.bytes.as_ptr(),
        l.bytes.len()
    )
}

pub fn write_random(l: &mut Lent, turns: u32) -> u32 {
    call!(
        virpulens_bench_write_random,
        l,
        turns,
        0,
        40,
        l.bytes.len() as u32,
        l.bytes.as_ptr(),
        l.bytes.len()
    )
}

pub fn load(l: &mut Lent, turns: u32) -> u32 {
    call!(
        virpulens_bench_load,
        l,
        turns,
        l.buffer.as_mut_ptr(),
        l.buffer.len(),
        0,
        256 + 14,
        0
    )
}

pub fn store(l: &mut Lent, turns: u32) -> u32 {
    call!(virpulens_bench_store, l, turns, 0, 512 + 14, 0, l.bytes.as_ptr(), l.bytes.len())
}

pub fn flush(l: &mut Lent, turns: u32) -> u32 {
    call!(virpulens_bench_flush, l, turns, 0, 256 + 14, u32::MAX)
}

pub fn configuration(l: &mut Lent, turns: u32) -> u32 {
    call!(virpulens_bench_configuration, l, turns, l.buffer.as_mut_ptr(), l.buffer.len(), 0)
}

pub fn logout_login(l: &mut Lent, turns: u32) -> u32 {
    call!(
        virpulens_bench_logout_login,
        l,
        turns,
        0,
        l.name.as_ptr(),
        l.name.len(),
        l.password.as_ptr(),
        l.password.len()
    )
}

pub fn logout(l: &mut Lent, turns: u32) -> u32 {
    call!(virpulens_bench_logout, l, turns, 0)
}

pub fn who(l: &mut Lent, turns: u32) -> u32 {
    call!(
        virpulens_bench_who,
        l,
        turns,
        l.buffer.as_mut_ptr(),
        l.buffer.len(),
        0,
        l.name.as_ptr(),
        l.name.len(),
        l.password.as_ptr(),
        l.password.len()
    )
}

pub fn set_password(l: &mut Lent, turns: u32) -> u32 {
    call!(
        virpulens_bench_set_password,
        l,
        turns,
        0,
        l.name.as_ptr(),
        l.name.len(),
        l.password.as_ptr(),
        l.password.len(),
        u32::MAX,
        l.bytes.as_ptr(),
        l.bytes.len()
    )
}

pub fn shutdown(l: &mut Lent, turns: u32) -> u32 {
    call!(virpulens_bench_shutdown, l, turns, 0, l.bytes.as_ptr(), l.bytes.len())
}

pub fn powerdown(l: &mut Lent, turns: u32) -> u32 {
    call!(virpulens_bench_powerdown, l, turns, 0)
}
