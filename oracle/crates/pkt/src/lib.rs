//! A stand-in for resynth's `pkt`: the few names that the copied files mention. No packet is
//! ever made here.

#[derive(Debug, Clone, PartialEq, Eq)]
pub struct Packet(Vec<u8>);

pub struct PacketSlice;

impl Packet {
    pub fn bit_time(&self) -> u64 {
        0
    }

    pub fn to_vec(&self) -> Vec<u8> {
        self.0.clone()
    }

    pub fn as_slice(&self) -> PacketSlice {
        PacketSlice
    }
}

impl PacketSlice {
    pub fn get<'a>(&self, pkt: &'a Packet) -> &'a [u8] {
        &pkt.0
    }
}
