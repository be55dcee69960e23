//! The front-end's messages (vhost-user), over crate vhost, which reads and checks them. Crate
//! vhost-user-backend isn't used: it marks pages after the log is gone, and doesn't pass err
//! descriptors on.
//!
//! An error of kind `ReqHandlerError` is reported to the front-end, if it asked for a reply, and
//! the daemon continues. After any other error the connection ends.
mod handed;

pub use handed::Agreed;

use crate::device::{Core, QueueWorker, ServedFs};
use crate::marks::Log;
use crate::memory::Table;
use crate::migration::Migration;
use crate::ring::{Patience, Ring, SIZE_MAX};
use log::{debug, error, info};
use std::fs::File;
use std::io;
use std::os::fd::RawFd;
use std::sync::Arc;
#[allow(clippy::wildcard_imports, reason = "the module is the protocol's messages")]
use vhost::vhost_user::message::*;
use vhost::vhost_user::{Backend, Error, GpuBackend, Result, VhostUserBackendReqHandlerMut};
use virtio_bindings::bindings::virtio_config::{VIRTIO_F_ACCESS_PLATFORM, VIRTIO_F_VERSION_1};
use virtio_bindings::bindings::virtio_ring::{
    VIRTIO_RING_F_EVENT_IDX, VIRTIO_RING_F_INDIRECT_DESC,
};

/// `VIRTIO_F_ACCESS_PLATFORM`: the device accesses memory with the platform's translation. QEMU
/// passes the bit in `SET_FEATURES` only if the guest has a vIOMMU in front of the device. Then the
/// addresses of rings and buffers are I/O addresses.
const ACCESS_PLATFORM: u64 = 1 << VIRTIO_F_ACCESS_PLATFORM;

/// The bytes of a tag (`tag` of struct `virtio_fs_config`).
pub const TAG_LEN: usize = 36;

/// The memory slots that the front-end may use, as many as with vhost in Linux, and with virtiofsd.
const MEMORY_SLOTS: u64 = 509;
const _: () = assert!(MEMORY_SLOTS <= pitskhomu::Device::MAX_REGIONS as u64);

/// The state of the connection to one front-end.
pub struct FrontEnd<F> {
    core: Arc<Core<F>>,
    tag: Option<String>,
    features: u64,
    protocol: u64,
    log: Option<Arc<Log>>,
    migration: Migration<F>,
    /// Enables the kicks of a ring that is stopped, enabled or disabled.
    worker: QueueWorker<F>,
}

fn told(e: io::Error) -> Error {
    Error::ReqHandlerError(e)
}

fn unsupported(what: &'static str) -> Error {
    told(io::Error::new(io::ErrorKind::Unsupported, what))
}

fn no_queue() -> Error {
    told(io::Error::other("no such queue"))
}

impl<F: ServedFs> FrontEnd<F> {
    /// The state before the front-end's first message.
    pub fn new(core: Arc<Core<F>>, tag: Option<String>) -> io::Result<FrontEnd<F>> {
        let (migration, worker) =
            (Migration::new(core.clone())?, QueueWorker::new(core.clone(), 0));
        Ok(FrontEnd { core, tag, features: 0, protocol: 0, log: None, migration, worker })
    }

    /// The front-end is connected by this socket.
    pub fn connect(&self, socket: RawFd) -> io::Result<()> {
        self.migration.watch(socket)
    }

    fn ring(&self, index: impl Into<u32>) -> Result<&Ring> {
        self.core.rings.get(index.into() as usize).ok_or_else(no_queue)
    }

    /// Enables or disables all rings.
    fn enable_all(&mut self, enabled: bool, patience: Patience) {
        let memory = self.core.memory();
        if !enabled {
            memory.iommu().hush();
        }
        for ring in &self.core.rings {
            ring.enable(enabled, &mut self.worker, &memory, patience);
        }
    }

    fn logs(&self) -> bool {
        self.features & VhostUserVirtioFeatures::LOG_ALL.bits() != 0
    }

    /// Sets the log in which pages are marked: the front-end's, if it has sent one and
    /// `VHOST_F_LOG_ALL` is set.
    fn set_log(&self) {
        self.core.memory().logging().set(self.log.clone().filter(|_| self.logs()));
    }

    fn set_memory(&mut self, table: io::Result<Table>) -> Result<()> {
        self.core.set_memory(table.map_err(told)?, Patience::new());
        Ok(())
    }

    fn config(&self) -> [u8; TAG_LEN + 4] {
        let mut config = [0; TAG_LEN + 4];
        let tag = self.tag.as_deref().unwrap_or_default().as_bytes();
        config.iter_mut().zip(tag).for_each(|(to, from)| *to = *from);
        #[allow(clippy::cast_possible_truncation, reason = "there are at most 64 rings")]
        let request_queues = self.core.rings.len() as u32 - 1;
        config[TAG_LEN..].copy_from_slice(&request_queues.to_le_bytes());
        config
    }
}

impl<F: ServedFs> VhostUserBackendReqHandlerMut for FrontEnd<F> {
    fn set_owner(&mut self) -> Result<()> {
        Ok(())
    }

    fn reset_owner(&mut self) -> Result<()> {
        Err(unsupported("RESET_OWNER, which is no longer used"))
    }

    fn reset_device(&mut self) -> Result<()> {
        let patience = Patience::new();
        self.enable_all(false, patience);
        let memory = self.core.memory();
        self.core.rings.iter().for_each(|ring| ring.reset(&memory));
        self.core.end_session(patience);
        Ok(())
    }

    fn get_features(&mut self) -> Result<u64> {
        Ok((1 << VIRTIO_F_VERSION_1)
            | ACCESS_PLATFORM
            | (1 << VIRTIO_RING_F_INDIRECT_DESC)
            | (1 << VIRTIO_RING_F_EVENT_IDX)
            | VhostUserVirtioFeatures::PROTOCOL_FEATURES.bits()
            | VhostUserVirtioFeatures::LOG_ALL.bits())
    }

    fn set_features(&mut self, features: u64) -> Result<()> {
        if features & !self.get_features()? != 0 {
            return Err(told(io::Error::other("features that weren't offered")));
        }
        let has_iommu = features & ACCESS_PLATFORM != 0;
        self.core.memory().iommu().set(has_iommu).map_err(|e| told(e.into()))?;
        self.features = features;
        let has_event_index = features & (1 << VIRTIO_RING_F_EVENT_IDX) != 0;
        self.core
            .rings
            .iter()
            .for_each(|ring| ring.tell(|numbers| numbers.has_event_index = has_event_index));
        if features & VhostUserVirtioFeatures::PROTOCOL_FEATURES.bits() == 0 {
            self.enable_all(true, Patience::new());
        }
        if self.logs() && self.core.fs.moves() {
            self.prepare_to_migrate();
        } else {
            self.migration.cancel();
            self.log = None;
        }
        self.set_log();
        Ok(())
    }

    fn set_mem_table(&mut self, regions: &[VhostUserMemoryRegion], files: Vec<File>) -> Result<()> {
        self.set_memory(self.core.memory().replaced(regions, files))
    }

    fn get_max_mem_slots(&mut self) -> Result<u64> {
        Ok(MEMORY_SLOTS)
    }

    fn add_mem_region(&mut self, region: &VhostUserSingleMemoryRegion, file: File) -> Result<()> {
        self.set_memory(self.core.memory().with(region, file))
    }

    fn remove_mem_region(&mut self, region: &VhostUserSingleMemoryRegion) -> Result<()> {
        self.set_memory(self.core.memory().without(region.guest_phys_addr, region.memory_size))
    }

    fn set_vring_num(&mut self, index: u32, num: u32) -> Result<()> {
        let size =
            u16::try_from(num).ok().filter(|size| *size <= SIZE_MAX && size.is_power_of_two());
        let size = size.ok_or_else(|| told(io::Error::other("a size that no queue has")))?;
        self.ring(index)?.tell(|numbers| numbers.layout.size = size);
        Ok(())
    }

    fn set_vring_addr(
        &mut self,
        index: u32,
        _flags: VhostUserVringAddrFlags,
        descriptor: u64,
        used: u64,
        available: u64,
        _log: u64,
    ) -> Result<()> {
        let memory = self.core.memory();
        let has_iommu = memory.iommu().is_on();
        let at = |address| {
            if has_iommu {
                Ok(address) // the driver's own
            } else {
                memory.guest_address(address).map_err(told)
            }
        };
        let (descriptors, available, used) = (at(descriptor)?, at(available)?, at(used)?);
        self.ring(index)?.tell(|numbers| {
            let size = numbers.layout.size;
            numbers.layout = pitskhomu::QueueLayout { size, descriptors, available, used };
        });
        Ok(())
    }

    fn set_vring_base(&mut self, index: u32, base: u32) -> Result<()> {
        let next_avail = u16::try_from(base)
            .map_err(|_| told(io::Error::other("a base that no split queue has")))?;
        self.ring(index)?.tell(|numbers| numbers.next_avail = next_avail);
        Ok(())
    }

    fn get_vring_base(&mut self, index: u32) -> Result<VhostUserVringState> {
        let patience = Patience::new();
        // The reply has only the base, so it can't report an error.
        let ring = self.core.rings.get(index as usize).ok_or(Error::InvalidParam)?;
        let memory = self.core.memory();
        memory.iommu().hush();
        let next_avail = ring.stop(&mut self.worker, &memory, patience);
        Ok(VhostUserVringState::new(index, next_avail.into()))
    }

    fn set_vring_kick(&mut self, index: u8, kick: Option<File>) -> Result<()> {
        let ring = self.ring(index)?;
        if let Some(kick) = kick {
            ring.start(kick, &self.core.memory()).map_err(told)
        } else {
            ring.stop_kicks();
            Err(unsupported("a ring without kicks"))
        }
    }

    fn set_vring_call(&mut self, index: u8, call: Option<File>) -> Result<()> {
        self.ring(index)?.set_call(call).map_err(told)
    }

    fn set_vring_err(&mut self, index: u8, err: Option<File>) -> Result<()> {
        self.ring(index)?.set_err(err).map_err(told)
    }

    fn get_protocol_features(&mut self) -> Result<VhostUserProtocolFeatures> {
        let features = VhostUserProtocolFeatures::MQ
            | VhostUserProtocolFeatures::REPLY_ACK
            | VhostUserProtocolFeatures::BACKEND_REQ
            | VhostUserProtocolFeatures::CONFIGURE_MEM_SLOTS
            | VhostUserProtocolFeatures::LOG_SHMFD
            | VhostUserProtocolFeatures::RESET_DEVICE;
        let offered = [
            (VhostUserProtocolFeatures::CONFIG, self.tag.is_some()),
            (VhostUserProtocolFeatures::DEVICE_STATE, self.core.fs.moves()),
        ];
        let offered = offered.into_iter().filter(|(_, is_offered)| *is_offered);
        Ok(offered.fold(features, |features, (one, _)| features | one))
    }

    fn set_protocol_features(&mut self, features: u64) -> Result<()> {
        debug!("the front-end takes protocol features {features:#x}");
        self.protocol = features;
        Ok(())
    }

    /// `iommu::messages` has taken a descriptor of the same channel.
    fn set_backend_req_fd(&mut self, _channel: Backend) {}

    fn get_queue_num(&mut self) -> Result<u64> {
        Ok(self.core.rings.len() as u64)
    }

    fn set_vring_enable(&mut self, index: u32, enable: bool) -> Result<()> {
        if self.features & VhostUserVirtioFeatures::PROTOCOL_FEATURES.bits() == 0 {
            return Err(unsupported("SET_VRING_ENABLE without the protocol's features"));
        }
        let patience = Patience::new();
        let ring = self.core.rings.get(index as usize).ok_or_else(no_queue)?;
        let memory = self.core.memory();
        if !enable {
            memory.iommu().hush();
        }
        ring.enable(enable, &mut self.worker, &memory, patience);
        Ok(())
    }

    fn get_config(
        &mut self,
        offset: u32,
        size: u32,
        _flags: VhostUserConfigFlags,
    ) -> Result<Vec<u8>> {
        // Zeros follow the device's own configuration.
        let config = self.config();
        Ok(config
            .into_iter()
            .chain(std::iter::repeat(0))
            .skip(offset as usize)
            .take(size as usize)
            .collect())
    }

    fn set_config(
        &mut self,
        _offset: u32,
        _bytes: &[u8],
        _flags: VhostUserConfigFlags,
    ) -> Result<()> {
        Err(unsupported("SET_CONFIG: the driver writes nothing there"))
    }

    fn set_gpu_socket(&mut self, _gpu: GpuBackend) -> Result<()> {
        Err(unsupported("GPU_SET_SOCKET"))
    }

    fn get_inflight_fd(
        &mut self,
        _inflight: &VhostUserInflight,
    ) -> Result<(VhostUserInflight, File)> {
        Err(Error::InvalidOperation("GET_INFLIGHT_FD wasn't offered"))
    }

    fn set_inflight_fd(&mut self, _inflight: &VhostUserInflight, _file: File) -> Result<()> {
        Err(unsupported("SET_INFLIGHT_FD wasn't offered"))
    }

    fn set_device_state_fd(
        &mut self,
        direction: VhostTransferStateDirection,
        phase: VhostTransferStatePhase,
        file: File,
    ) -> Result<Option<File>> {
        if phase != VhostTransferStatePhase::STOPPED {
            return Err(unsupported("a state that is transferred while rings run"));
        }
        match direction {
            VhostTransferStateDirection::SAVE => self.migration.save(file),
            VhostTransferStateDirection::LOAD => self.migration.load(file),
        }
        Ok(None)
    }

    fn check_device_state(&mut self) -> Result<()> {
        self.migration.finish().map_err(|e| {
            error!("migration failed: {e}");
            told(e)
        })
    }

    fn set_log_base(&mut self, log: &VhostUserLog, file: File) -> Result<()> {
        // The reply is the message's own, so it can't report an error.
        let log = Log::new(file, log.mmap_offset, log.mmap_size).map_err(|e| {
            error!("the migration's log: {e}");
            Error::InvalidParam
        })?;
        self.log = Some(Arc::new(log));
        info!("pages are logged");
        self.set_log();
        Ok(())
    }
}
