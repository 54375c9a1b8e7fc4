//! The oracle's sample, answered through the methods: the answers are the unchanged Rust's.
use page_cache::{Answer, Code, Operation, Page, PageCache, PageCacheKey, PageHandle, Record};

const RECORDS: &[u8] = include_bytes!("../../../oracle/sample/records.bin");
const ANSWERS: &str = include_str!("../../../oracle/sample/answers.txt");

fn number(bytes: &[u8]) -> u64 {
    bytes.iter().rev().fold(0, |n, &b| n << 8 | u64::from(b))
}

/// Makes the call by the method that it belongs to. What the method hands back has to agree with the answer.
fn call(cache: &mut PageCache, record: &[u8]) -> Answer {
    let key = PageCacheKey(number(&record[4..8]) as u32);
    let handle = PageHandle(number(&record[8..12]) as u32);
    let n = number(&record[16..24]);
    let page = Page {
        flags: record[1],
        pins: number(&record[2..4]) as u16,
        holders: number(&record[12..14]) as u16,
        cells: record[14],
        frame: n,
    };
    let option = record[15] == 1;
    let operation = Operation::from_number(record[0]).expect("an operation");
    let refusal = match operation {
        Operation::Create => cache.create(n).err(),
        Operation::Insert => cache.insert(key, handle, page).err(),
        Operation::ForceInsert => cache.force_insert_page(key, handle, page).err(),
        Operation::ForceUpsert => cache.force_upsert_page(key, handle, page).err(),
        Operation::Get => cache.get(key).err(),
        Operation::Peek => cache.peek(key, option).err(),
        Operation::Delete => cache.delete(key).err(),
        Operation::Resize => cache.resize(n).err(),
        Operation::Truncate => cache.truncate(n).err(),
        Operation::RemoveFrames => cache.delete_clean_pages_after_wal_frame(n).err(),
        Operation::Clear => cache.clear(option).err(),
        Operation::NotifyDirty => cache.notify_page_dirty(key).err(),
        Operation::NotifySpilled => cache.notify_page_spilled(key).err(),
        Operation::WriteRecord => cache.write_record(key, page).err(),
        Operation::CheckSpill => cache.check_spill(n).err(),
        Operation::EvictOne => cache.evict_one().err(),
        Operation::SetSpill => cache.set_spill_enabled(option).err(),
        Operation::Release => cache.release(key).err(),
        other => panic!("{other:?} has no method"),
    };
    let answer = cache.last();
    use Code::{Absent, Done, NoneSelected, NotNeeded, PendingEvictions};
    let is_result = match answer.code {
        Done | PendingEvictions | NotNeeded | NoneSelected => true,
        // who releases a page had found it
        Absent => operation != Operation::Release,
        _ => false,
    };
    assert_eq!(refusal, answer.error().filter(|_| !is_result), "{:?}", answer.code);
    answer
}

/// The line of the replay program.
fn line(cache: &PageCache, answer: Answer) -> String {
    let hand = answer.hand.map_or(String::from("-"), |key| key.0.to_string());
    let code = answer.code.number();
    let mut line = format!("{code} {} {} {} {hand} {}", answer.value, answer.passed, answer.held, answer.listed);
    for handle in cache.listed() {
        line += &format!(" {}", handle.0);
    }
    line
}

#[test]
fn answers_as_the_oracle_does() {
    let mut cache = PageCache::new(256, 0).unwrap();
    assert_eq!(RECORDS.len() % Record::LENGTH, 0);
    assert_eq!(RECORDS.len() / Record::LENGTH, ANSWERS.lines().count());
    for (at, (record, expected)) in RECORDS.chunks(Record::LENGTH).zip(ANSWERS.lines()).enumerate() {
        let answer = call(&mut cache, record);
        assert_eq!(line(&cache, answer), expected, "record {at}: {record:?}");
        let pages = cache.list().unwrap();
        assert_eq!(pages.len(), answer.held as usize);
        assert_eq!(pages.first().map(|page| page.key), answer.hand);
    }
}

#[test]
fn bytes_are_those_of_the_sample() {
    // records whose unused fields are zero come out of `Record` as they are
    let mut compared = 0;
    let insertion = Operation::Insert.number();
    for record in RECORDS.chunks(Record::LENGTH).filter(|record| record[0] == insertion && record[15] == 0) {
        let page = Page {
            flags: record[1],
            pins: number(&record[2..4]) as u16,
            holders: number(&record[12..14]) as u16,
            cells: record[14],
            frame: number(&record[16..24]),
        };
        let key = PageCacheKey(number(&record[4..8]) as u32);
        let handle = PageHandle(number(&record[8..12]) as u32);
        assert_eq!(Record::new(Operation::Insert).with_key(key).with_handle(handle).with_page(page).bytes(), record);
        compared += 1;
    }
    assert!(compared > 100);
}
