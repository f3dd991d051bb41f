//! How an address is taken apart, and where its page may sit in the buffer.

pub const SETS: usize = 4;
pub const LOCATIONS: usize = 16;
pub const SLOTS: usize = SETS * LOCATIONS;

/// The 19-bit virtual page number.
pub fn vpn(address: u32) -> u32 {
    address / 8192
}

/// The 13-bit offset within the page.
pub fn offset(address: u32) -> u32 {
    address % 8192
}

/// Address bits 31 to 28.
pub fn segment(address: u32) -> u32 {
    address >> 28
}

/// "Location = vpn mod 16".
pub fn location(vpn: u32) -> usize {
    (vpn % 16) as usize
}

/// "vpn15 = vpn div 16".
pub fn vpn15(vpn: u32) -> u32 {
    vpn / 16
}

/// "Slot = 16 × set + location".
pub fn slot(set: usize, location: usize) -> usize {
    LOCATIONS * set + location
}

/// The four slots of a location, one in each set.
pub fn slots_of(location: usize) -> [usize; SETS] {
    [
        slot(0, location),
        slot(1, location),
        slot(2, location),
        slot(3, location),
    ]
}
