//! Every answer code but `Done` is an error of its own, under the code's name, and each can be brought about.
use page_cache::{sys, CacheError, CacheResizeResult, Code, Memory, Operation, Page, PageCache, PageCacheKey, PageHandle, Record};
use page_cache::{Answer, SpillResult};
use std::collections::BTreeSet;

const LOADED: u8 = Page::LOADED;

fn key(pgno: u32) -> PageCacheKey {
    PageCacheKey::new(pgno)
}

fn insert(cache: &mut PageCache, n: u32, flags: u8) -> Result<(), CacheError> {
    cache.insert(key(n), PageHandle(10 * n), Page::with(flags))
}

/// A pool with room for two pages of four, that holds these pages.
fn holding(pages: &[(u32, u8)]) -> PageCache<'static> {
    let mut cache = PageCache::new(4, 2).unwrap();
    for &(n, flags) in pages {
        insert(&mut cache, n, flags).unwrap();
    }
    cache
}

#[test]
fn each_code_is_an_error_of_its_own_name() {
    let answer = |code| Answer { code, value: 7, passed: 0, held: 0, hand: None, listed: 0 };
    assert_eq!(answer(Code::Done).error(), None);
    for &code in &Code::ALL[1..] {
        let error = answer(code).error().expect("an error");
        let name = format!("{error:?}");
        assert_eq!(name.trim_end_matches(" { pgno: 7 }"), format!("{code:?}"));
        assert_eq!(name.contains("pgno: 7"), matches!(code, Code::Locked | Code::Dirty | Code::Pinned));
        assert_eq!(error.to_string().contains('7'), name.contains('7'), "{error}");
    }
    let said: BTreeSet<_> = Code::ALL[1..].iter().map(|&code| answer(code).error().unwrap().to_string()).collect();
    assert_eq!(said.len(), Code::ALL.len() - 1, "each says something else");
}

#[test]
fn numbers_and_names_are_one_to_one() {
    for (number, &code) in Code::ALL.iter().enumerate() {
        assert_eq!((code.number() as usize, Code::from_number(number as u32)), (number, Some(code)));
    }
    assert_eq!(Code::from_number(Code::ALL.len() as u32), None);
    for (number, &operation) in Operation::ALL.iter().enumerate() {
        assert_eq!((usize::from(operation.number()), Operation::from_number(number as u8)), (number, Some(operation)));
    }
    assert_eq!(Operation::from_number(Operation::ALL.len() as u8), None);
}

/// The original's names and words.
#[test]
fn errors_that_the_original_has() {
    let mut cache = holding(&[(5, LOADED | Page::LOCKED), (6, LOADED | Page::DIRTY)]);
    assert_eq!(cache.delete(key(5)), Err(CacheError::Locked { pgno: 5 }));
    assert_eq!(cache.delete(key(6)), Err(CacheError::Dirty { pgno: 6 }));
    assert_eq!(insert(&mut cache, 6, LOADED | Page::DIRTY), Err(CacheError::KeyExists));
    assert_eq!(insert(&mut cache, 7, LOADED), Err(CacheError::Full));
    cache.write_record(key(6), Page { pins: 1, ..Page::loaded() }).unwrap();
    let pinned = cache.delete(key(6)).unwrap_err();
    assert_eq!((pinned, pinned.to_string().as_str()), (CacheError::Pinned { pgno: 6 }, "page 6 is pinned"));
}

#[test]
fn errors_that_the_original_does_not_have() {
    assert_eq!(PageCache::new(0, 0).unwrap_err(), CacheError::BadLengths);
    assert_eq!(PageCache::new(usize::MAX, 5).unwrap_err(), CacheError::BadLengths);
    assert_eq!(PageCache::new(sys::MAX_SLOTS + 1, 5).unwrap_err(), CacheError::BadLengths);
    assert_eq!(PageCache::new(4, 5).unwrap_err(), CacheError::TooLarge);
    assert!(PageCache::new(sys::MAX_SLOTS, 5).is_ok());

    let mut cache = holding(&[(5, LOADED)]);
    assert_eq!(cache.resize(5), Err(CacheError::TooLarge));
    assert_eq!(insert(&mut cache, 6, 32), Err(CacheError::BadRecord));
    assert_eq!(cache.insert(key(5), PageHandle(51), Page::loaded()), Err(CacheError::OtherPage));
    assert_eq!(cache.insert(key(6), PageHandle(50), Page::loaded()), Err(CacheError::HandleElsewhere));
    for bytes in [&[0; 31][..], &[0; 33], &[255; 32]] {
        assert_eq!(cache.apply(bytes).error(), Some(CacheError::BadReplay));
    }
    assert_eq!(cache.apply(&Record::new(Operation::Get).with_key(key(9)).bytes()).error(), Some(CacheError::Absent));
    assert_eq!(cache.release(key(9)), Err(CacheError::Absent));
    assert_eq!(cache.release(key(5)), Err(CacheError::HolderLimit));
    cache.clear(true).unwrap();
    assert_eq!(cache.evict_one(), Err(CacheError::Empty));

    let mut full = PageCache::new(2, 0).unwrap();
    for n in [5, 6] {
        full.force_insert_page(key(n), PageHandle(n), Page::loaded()).unwrap();
    }
    assert_eq!(full.force_insert_page(key(7), PageHandle(7), Page::loaded()), Err(CacheError::NoSlot));

    let mut unsound = PageCache::over(Memory::owned(2));
    assert_eq!(unsound.evict_one(), Err(CacheError::NotSound));
    assert_eq!(unsound.release(key(5)), Err(CacheError::NotSound));
    assert_eq!(unsound.list(), Err(CacheError::NotSound));
    assert_eq!(unsound.contains_key(key(5)), Err(CacheError::NotSound));
    assert_eq!(unsound.needs_spill(), Err(CacheError::NotSound));
}

/// Refusals that a method has another result for.
#[test]
fn errors_that_methods_answer_otherwise() {
    let mut cache = holding(&[(5, LOADED | Page::DIRTY)]);
    assert_eq!((cache.get(key(9)), cache.last().error()), (Ok(None), Some(CacheError::Absent)));
    assert_eq!((cache.write_record(key(9), Page::loaded()), cache.last().error()), (Ok(false), Some(CacheError::Absent)));
    assert_eq!(cache.resize(0), Ok(CacheResizeResult::PendingEvictions));
    assert_eq!(cache.last().error(), Some(CacheError::PendingEvictions));
    assert_eq!((cache.check_spill(9), cache.last().error()), (Ok(SpillResult::NotNeeded), Some(CacheError::NotNeeded)));
    for n in [6, 7] {
        cache.force_insert_page(key(n), PageHandle(n), Page::with(LOADED | Page::DIRTY)).unwrap();
    }
    assert_eq!((cache.check_spill(0), cache.last().error()), (Ok(SpillResult::CacheFull), Some(CacheError::NoneSelected)));
}

/// A cache lends its calls a list as long as its pool, so that only a caller who lends another list gets this answer.
#[test]
fn a_short_list() {
    let (mut slots, mut by_key, mut by_handle, mut marks) = ([0; sys::SLOT_WORDS], [0; 1], [0; 1], [0; 1]);
    let (mut head, mut answer) = ([0; sys::HEAD], [0; sys::ANSWER]);
    assert_eq!(sys::create(&mut slots, &mut by_key, &mut by_handle, &mut marks, &mut head, 1), Code::Done);
    let mut apply = |record: Record, list: &mut [u32]| {
        sys::apply(&mut slots, &mut by_key, &mut by_handle, &mut marks, &mut head, list, &record.bytes(), &mut answer)
    };
    assert_eq!(apply(Record::new(Operation::Insert).with_page(Page::loaded()), &mut []), Code::Done);
    assert_eq!(apply(Record::new(Operation::EvictOne), &mut []), Code::ShortList);
    assert_eq!(apply(Record::new(Operation::EvictOne), &mut [0]), Code::Done);
}
