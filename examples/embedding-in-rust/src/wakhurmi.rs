//! The C interface for Rust: what its header asks of a caller is kept here by types.

use std::ffi::c_char;
use std::marker::PhantomData;
use std::ptr;

#[repr(C)]
struct Opaque {
    _private: [u8; 0],
}

extern "C" {
    fn wakhurmi_open(workers: u32, max_leases: u32, locks: u32, service: *mut *mut Opaque) -> u32;
    fn wakhurmi_take(service: *mut Opaque, worker: u32, locks: *const u32, count: usize) -> u32;
    fn wakhurmi_hand_back(service: *mut Opaque, worker: u32) -> u32;
    fn wakhurmi_stop(service: *mut Opaque) -> u32;
    fn wakhurmi_leases_out(service: *mut Opaque, leases: *mut u32) -> u32;
    fn wakhurmi_finish(service: *mut Opaque) -> u32;
    fn wakhurmi_history(
        service: *mut Opaque,
        place: *mut u64,
        buffer: *mut c_char,
        size: usize,
        written: *mut usize,
    ) -> u32;
    fn wakhurmi_close(service: *mut Opaque);
}

/// Why a call did nothing: the number that the header names.
#[derive(Debug, PartialEq, Eq)]
pub struct Refused(pub u32);

fn done(answer: u32) -> Result<(), Refused> {
    if answer == 0 {
        Ok(())
    } else {
        Err(Refused(answer))
    }
}

/// A service.
pub struct Service {
    at: *mut Opaque,
    workers: u32,
}

/// A worker of a service. There is one of each number, so no two threads use it at once.
pub struct Worker<'a> {
    at: *mut Opaque,
    number: u32,
    service: PhantomData<&'a Service>,
}

// Calls with different workers may run at once, in any threads.
unsafe impl Send for Worker<'_> {}

/// Stops a service and asks for its leases, in any thread and beside any worker.
#[derive(Clone, Copy)]
pub struct Onlooker<'a> {
    at: *mut Opaque,
    service: PhantomData<&'a Service>,
}

// Its calls need no worker, and any number of them may run at once.
unsafe impl Send for Onlooker<'_> {}
unsafe impl Sync for Onlooker<'_> {}

/// A lease and locks. They are handed back when it is let go.
pub struct Taken<'a, 'b> {
    worker: &'b mut Worker<'a>,
}

impl Service {
    pub fn open(workers: u32, max_leases: u32, locks: u32) -> Result<Service, Refused> {
        let mut at = ptr::null_mut();
        done(unsafe { wakhurmi_open(workers, max_leases, locks, &mut at) })?;
        Ok(Service { at, workers })
    }

    /// All workers, and an onlooker. While they live the service is borrowed, so nobody gets another worker of the same number.
    pub fn parts(&mut self) -> (Vec<Worker<'_>>, Onlooker<'_>) {
        let (at, service) = (self.at, PhantomData);
        let workers = (0..self.workers)
            .map(|number| Worker {
                at,
                number,
                service,
            })
            .collect();
        (workers, Onlooker { at, service })
    }

    /// Ends the service, once all workers are let go, and gives its history out.
    pub fn finish(self) -> Result<String, Refused> {
        done(unsafe { wakhurmi_finish(self.at) })?;
        let mut text = Vec::new();
        let mut buffer = vec![0_u8; 100_000];
        let mut place = 0;
        loop {
            let mut written = 0;
            let into = buffer.as_mut_ptr().cast();
            done(unsafe {
                wakhurmi_history(self.at, &mut place, into, buffer.len(), &mut written)
            })?;
            if written == 0 {
                return Ok(String::from_utf8(text).expect("a history is ASCII"));
            }
            text.extend_from_slice(&buffer[..written]);
        }
    }
}

impl Drop for Service {
    fn drop(&mut self) {
        unsafe { wakhurmi_close(self.at) }
    }
}

impl<'a> Worker<'a> {
    /// Waits for a lease and these locks, and takes them at once.
    pub fn take(&mut self, locks: &[u32]) -> Result<Taken<'a, '_>, Refused> {
        done(unsafe { wakhurmi_take(self.at, self.number, locks.as_ptr(), locks.len()) })?;
        Ok(Taken { worker: self })
    }
}

impl Drop for Taken<'_, '_> {
    fn drop(&mut self) {
        unsafe { wakhurmi_hand_back(self.worker.at, self.worker.number) };
    }
}

impl Onlooker<'_> {
    /// Has all takes that wait, or would have to from now on, end without what they want.
    pub fn stop(&self) -> Result<(), Refused> {
        done(unsafe { wakhurmi_stop(self.at) })
    }

    /// How many leases are out.
    pub fn leases_out(&self) -> Result<u32, Refused> {
        let mut leases = 0;
        done(unsafe { wakhurmi_leases_out(self.at, &mut leases) })?;
        Ok(leases)
    }
}
