//! The proved cache.
use crate::workload::Load;
use page_cache::{sys, Code, Record};

extern "C" {
    fn pc_bench_run(
        slots: *mut u64, slots_length: usize, by_key: *mut u32, by_key_length: usize, by_handle: *mut u32,
        by_handle_length: usize, marks: *mut u64, marks_length: usize, head: *mut u64, head_length: usize, list: *mut u32,
        list_length: usize, records: *const u8, records_length: usize,
    ) -> u32;
}

pub struct Pool {
    pub slots: Vec<u64>,
    pub by_key: Vec<u32>,
    pub by_handle: Vec<u32>,
    pub marks: Vec<u64>,
    pub head: [u64; sys::HEAD],
    list: Vec<u32>,
}

impl Pool {
    /// A pool with as many slots as pages fit, and the pages that the load begins with.
    pub fn ready(pages: usize, load: &Load) -> Self {
        let mut pool = Pool {
            slots: vec![0; sys::SLOT_WORDS * pages],
            by_key: vec![0; pages],
            by_handle: vec![0; pages],
            marks: vec![0; pages.div_ceil(64)],
            head: [0; sys::HEAD],
            list: vec![0; pages],
        };
        let Pool { slots, by_key, by_handle, marks, head, .. } = &mut pool;
        assert_eq!(sys::create(slots, by_key, by_handle, marks, head, pages as u64), Code::Done);
        pool.run(&load.held.iter().flat_map(|record| record.bytes()).collect::<Vec<_>>());
        assert_eq!(pool.held(), load.held.len());
        pool
    }

    /// The records after one soundness test: what a call costs below it.
    pub fn run(&mut self, records: &[u8]) {
        // every pointer is that of a slice with this length, and no two overlap
        let code = unsafe {
            pc_bench_run(
                self.slots.as_mut_ptr(), self.slots.len(), self.by_key.as_mut_ptr(), self.by_key.len(),
                self.by_handle.as_mut_ptr(), self.by_handle.len(), self.marks.as_mut_ptr(), self.marks.len(),
                self.head.as_mut_ptr(), self.head.len(), self.list.as_mut_ptr(), self.list.len(), records.as_ptr(), records.len(),
            )
        };
        assert_eq!(Code::from_number(code), Some(Code::Done));
    }

    /// The records one by one, each with the soundness test before it.
    pub fn apply_each(&mut self, records: &[u8]) {
        let mut answer = [0; sys::ANSWER];
        for record in records.chunks(Record::LENGTH) {
            let code = sys::apply(
                &mut self.slots, &mut self.by_key, &mut self.by_handle, &mut self.marks, &mut self.head, &mut self.list,
                record, &mut answer,
            );
            assert_ne!(code, Code::NotSound);
        }
    }

    pub fn is_sound(&self) -> bool {
        sys::test(&self.slots, &self.by_key, &self.by_handle, &self.marks, &self.head) == Code::Done
    }

    pub fn held(&self) -> usize {
        self.head[sys::head::HELD] as usize
    }
}

/// How many pages are held after the whole load.
pub fn held_after(pages: usize, load: &Load) -> usize {
    let mut pool = Pool::ready(pages, load);
    pool.run(&load.bytes());
    pool.held()
}
