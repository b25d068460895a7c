//! Reading and writing the memories.

use super::{
    at_least, check, number32, Outcome, LOCKED, NOT_INSIDE, RANGE, SEQUENCE, SHORT, WRITE_PROTECTED,
};
use crate::line::MAX_PACKET;
use crate::memory::{block, block_mut, Extension, Mta, ADDRESSABLE};
use crate::packet::Packet;
use crate::session::Session;

/// So many bytes stand before the data: FF in an answer; code and count; these and an address.
const ANSWER_HEAD: usize = 1;
const DOWNLOAD_HEAD: usize = 2;
const SHORT_DOWNLOAD_HEAD: usize = 8;

impl Session {
    pub(super) fn set_mta(&mut self, packet: &[u8]) -> Outcome {
        at_least(packet, 8)?;
        self.mta = Mta::At(extension(packet)?, number32(packet, 4));
        Ok(())
    }

    pub(super) fn upload(
        &mut self,
        packet: &[u8],
        cal: &[u8],
        meas: &[u8],
        answer: &mut Packet,
    ) -> Outcome {
        at_least(packet, 2)?;
        let (extension, address) = self.mta_set()?;
        let count = count(packet, ANSWER_HEAD)?;
        self.read(extension, extension.of(cal, meas), address, count, answer)
    }

    pub(super) fn short_upload(
        &mut self,
        packet: &[u8],
        cal: &[u8],
        meas: &[u8],
        answer: &mut Packet,
    ) -> Outcome {
        at_least(packet, 8)?;
        let count = count(packet, ANSWER_HEAD)?;
        let extension = extension(packet)?;
        let address = number32(packet, 4);
        self.read(extension, extension.of(cal, meas), address, count, answer)
    }

    pub(super) fn build_checksum(
        &mut self,
        packet: &[u8],
        cal: &[u8],
        meas: &[u8],
        answer: &mut Packet,
    ) -> Outcome {
        at_least(packet, 8)?;
        let (extension, address) = self.mta_set()?;
        let size = number32(packet, 4);
        if size == 0 || size > ADDRESSABLE as u32 {
            // This refusal alone says more than its code: the largest size.
            answer.begin(&[0xFE, RANGE, 0, 0, 0x00, 0x10, 0x00, 0x00]);
            return Ok(());
        }
        let bytes = block(extension.of(cal, meas), address, size).ok_or(NOT_INSIDE)?;
        let sum = bytes
            .iter()
            .fold(0u16, |sum, byte| sum.wrapping_add(u16::from(*byte)));
        self.mta = Mta::At(extension, address + size);
        answer.extend(&[0x02, 0, 0]);
        answer.extend(&u32::from(sum).to_le_bytes());
        Ok(())
    }

    pub(super) fn download(&mut self, packet: &[u8], cal: &mut [u8]) -> Outcome {
        at_least(packet, DOWNLOAD_HEAD)?;
        check(!self.calibration_locked, LOCKED)?;
        let (extension, address) = self.mta_set()?;
        let data = data(packet, DOWNLOAD_HEAD, count(packet, DOWNLOAD_HEAD)?)?;
        self.write(extension, cal, address, data)
    }

    pub(super) fn short_download(&mut self, packet: &[u8], cal: &mut [u8]) -> Outcome {
        at_least(packet, SHORT_DOWNLOAD_HEAD)?;
        check(!self.calibration_locked, LOCKED)?;
        let count = count(packet, SHORT_DOWNLOAD_HEAD)?;
        let extension = extension(packet)?;
        let data = data(packet, SHORT_DOWNLOAD_HEAD, count)?;
        self.write(extension, cal, number32(packet, 4), data)
    }

    /// The transfer address, or the refusal that it is unset.
    fn mta_set(&self) -> Result<(Extension, u32), u8> {
        match self.mta {
            Mta::At(extension, address) => Ok((extension, address)),
            Mta::Unset => Err(SEQUENCE),
        }
    }

    /// The bytes of a block that is inside; the address is behind it then.
    fn read(
        &mut self,
        extension: Extension,
        memory: &[u8],
        address: u32,
        count: u32,
        answer: &mut Packet,
    ) -> Outcome {
        answer.extend(block(memory, address, count).ok_or(NOT_INSIDE)?);
        self.mta = Mta::At(extension, address + count);
        Ok(())
    }

    /// Writes a block that is inside calibration; the address is behind it then.
    fn write(
        &mut self,
        extension: Extension,
        cal: &mut [u8],
        address: u32,
        data: &[u8],
    ) -> Outcome {
        check(extension == Extension::Calibration, WRITE_PROTECTED)?;
        let count = data.len() as u32;
        let target = block_mut(cal, address, count).ok_or(NOT_INSIDE)?;
        target.copy_from_slice(data);
        self.mta = Mta::At(extension, address + count);
        Ok(())
    }
}

/// The count at byte 1: as much as a packet holds behind a head of so many bytes.
fn count(packet: &[u8], head: usize) -> Result<u32, u8> {
    let most = (MAX_PACKET - head) as u8;
    check((1..=most).contains(&packet[1]), RANGE)?;
    Ok(u32::from(packet[1]))
}

fn extension(packet: &[u8]) -> Result<Extension, u8> {
    Extension::from_byte(packet[3]).ok_or(RANGE)
}

/// So many bytes behind the head; a packet may have more.
fn data(packet: &[u8], head: usize, count: u32) -> Result<&[u8], u8> {
    packet.get(head..head + count as usize).ok_or(SHORT)
}
