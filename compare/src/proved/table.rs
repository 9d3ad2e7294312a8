//! The table calls.

/// The numbers of an open load: how far its store is used, and whether it is
/// over (0 or 1).
#[derive(Clone, Copy, Debug, Default, PartialEq)]
#[repr(C)]
pub struct Load {
    pub used: usize,
    pub records: usize,
    pub over: u8,
}

/// What closing a load comes to: whether the load's records are live (0 or 1),
/// and how far the live store is used.
#[derive(Clone, Copy, Debug, Default, PartialEq)]
#[repr(C)]
pub struct Closed {
    pub done: u8,
    pub used: usize,
    pub records: usize,
}

extern "C" {
    fn abecs_check_store(
        store: *const u8,
        len: usize,
        used: usize,
        records: usize,
        network: u8,
    ) -> u8;
    fn abecs_block_good(block: *const u8, len: usize) -> u8;
    fn abecs_add_block(
        store: *mut u8,
        len: usize,
        used: usize,
        records: usize,
        over: u8,
        network: u8,
        block: *const u8,
        block_len: usize,
    ) -> Load;
    fn abecs_close_load(
        live: *mut u8,
        live_len: usize,
        loading: *mut u8,
        loading_len: usize,
        live_used: usize,
        live_records: usize,
        load_used: usize,
        load_records: usize,
        over: u8,
        network: u8,
    ) -> Closed;
    fn abecs_zero_store(store: *mut u8, len: usize);
    fn abecs_versions_after(
        versions: *mut u8,
        len: usize,
        network: u8,
        version: *const u8,
        version_len: usize,
    );
}

/// 1 where the store is sound. The network is the open load's, 0 for the live
/// store.
pub fn check_store(store: &[u8], used: usize, records: usize, network: u8) -> u8 {
    // SAFETY: as the module `proved` says.
    unsafe { abecs_check_store(store.as_ptr(), store.len(), used, records, network) }
}

/// 1 where the block of a TLR is good.
pub fn block_good(block: &[u8]) -> u8 {
    // SAFETY: as the module `proved` says.
    unsafe { abecs_block_good(block.as_ptr(), block.len()) }
}

/// Adds the block to the loading store.
pub fn add_block(store: &mut [u8], load: Load, network: u8, block: &[u8]) -> Load {
    // SAFETY: as the module `proved` says.
    unsafe {
        abecs_add_block(
            store.as_mut_ptr(),
            store.len(),
            load.used,
            load.records,
            load.over,
            network,
            block.as_ptr(),
            block.len(),
        )
    }
}

/// Closes the load over a live store that is used so far.
pub fn close_load(
    live: &mut [u8],
    loading: &mut [u8],
    used: usize,
    records: usize,
    load: Load,
    network: u8,
) -> Closed {
    // SAFETY: as the module `proved` says.
    unsafe {
        abecs_close_load(
            live.as_mut_ptr(),
            live.len(),
            loading.as_mut_ptr(),
            loading.len(),
            used,
            records,
            load.used,
            load.records,
            load.over,
            network,
        )
    }
}

/// Makes every byte of the store zero.
pub fn zero_store(store: &mut [u8]) {
    // SAFETY: as the module `proved` says.
    unsafe { abecs_zero_store(store.as_mut_ptr(), store.len()) }
}

/// Brings the versions up to date after a load that was closed.
pub fn versions_after(versions: &mut [u8], network: u8, version: &[u8]) {
    // SAFETY: as the module `proved` says.
    unsafe {
        abecs_versions_after(
            versions.as_mut_ptr(),
            versions.len(),
            network,
            version.as_ptr(),
            version.len(),
        )
    }
}
