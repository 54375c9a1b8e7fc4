//! Operations and records in words.

use crate::record::{flag, Operation, PageRecord, Record};

/// The name in docs/calls.tsv.
pub fn of_operation(operation: Operation) -> &'static str {
    match operation {
        Operation::Create => "create",
        Operation::Insert => "insert",
        Operation::ForceInsert => "force_insert",
        Operation::ForceUpsert => "force_upsert",
        Operation::Get => "get",
        Operation::Peek => "peek",
        Operation::Delete => "delete",
        Operation::Resize => "resize",
        Operation::Truncate => "truncate",
        Operation::RemoveFrames => "remove_frames",
        Operation::Clear => "clear",
        Operation::NotifyDirty => "notify_dirty",
        Operation::NotifySpilled => "notify_spilled",
        Operation::WriteRecord => "write_record",
        Operation::CheckSpill => "check_spill",
        Operation::EvictOne => "evict_one",
        Operation::SetSpill => "set_spill",
        Operation::Release => "release",
    }
}

/// The operation and the fields that it uses, or all fields of a bad record.
pub fn of_record(record: &Record) -> String {
    let Some(operation) = record.good_operation() else {
        return format!("a bad record: {record:?}");
    };
    let name = of_operation(operation);
    let (key, handle, number) = (record.key, record.handle, record.number);
    let page = of_page(&record.page());
    match operation {
        Operation::Create | Operation::Resize => format!("{name} {number}"),
        Operation::Insert | Operation::ForceInsert | Operation::ForceUpsert => {
            format!("{name} key {key}, handle {handle}: {page}")
        }
        Operation::WriteRecord => format!("{name} key {key}: {page}"),
        Operation::Get
        | Operation::Delete
        | Operation::NotifyDirty
        | Operation::NotifySpilled
        | Operation::Release => format!("{name} key {key}"),
        Operation::Peek if record.option == 1 => format!("{name} key {key} with a touch"),
        Operation::Peek => format!("{name} key {key}"),
        Operation::Truncate => format!("{name} above key {number}"),
        Operation::RemoveFrames => format!("{name} above frame {number}"),
        Operation::Clear if record.option == 1 => format!("{name}, dirty pages too"),
        Operation::Clear | Operation::EvictOne => name.into(),
        Operation::CheckSpill => format!("{name}, at most {number}"),
        Operation::SetSpill if record.option == 1 => format!("{name} on"),
        Operation::SetSpill => format!("{name} off"),
    }
}

fn of_page(page: &PageRecord) -> String {
    const FLAGS: [(u8, &str); 5] = [
        (flag::LOADED, "loaded"),
        (flag::LOCKED, "locked"),
        (flag::DIRTY, "dirty"),
        (flag::SPILLED, "spilled"),
        (flag::WAL_TAG, "tagged"),
    ];
    let mut words: Vec<String> = FLAGS
        .iter()
        .filter(|&&(flag, _)| page.flags & flag != 0)
        .map(|&(_, name)| name.into())
        .collect();
    if page.flags > flag::ALL {
        words.push(format!("flags {}", page.flags));
    }
    let numbers = [
        ("pins", u64::from(page.pins)),
        ("holders", page.holders.into()),
        ("overflow cells", page.overflow_cells.into()),
        ("frame", page.frame),
    ];
    let given = numbers.iter().filter(|&&(_, number)| number > 0);
    words.extend(given.map(|(name, number)| format!("{name} {number}")));
    if words.is_empty() {
        return "no flag".into();
    }
    words.join(", ")
}
