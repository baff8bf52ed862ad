//! The refusals' words, for errors, help and examples: a refusal's words stand here and nowhere else.
use crate::meaning::{Index, Meaning};
use crate::numbers::grouped;
use crate::raw::{HORIZON, LAST_ARRIVAL, LAST_REFUSAL, MOST_LIST_BYTES, MOST_TABLE_BYTES};

/// What a refusal number means.
pub fn of(number: u8) -> Option<&'static Meaning> {
    ALL.iter().find(|meaning| meaning.number == number)
}

/// One for each number, in their order.
pub static ALL: [Meaning; LAST_REFUSAL as usize] = [
    Meaning {
        number: 1,
        when: || {
            let most = grouped(MOST_TABLE_BYTES as u64);
            format!("the table's length is 0, above {most} bytes, or not a multiple of 8")
        },
        index: Index::Zero,
        because: "seven bytes",
        command: || r#"read "hex:00 01 01 00 05 00 05""#.into(),
        answer: "refused 1 0",
    },
    Meaning {
        number: 2,
        when: || {
            "a task number is above 15, or the tasks are not runs of records of which the first is task 0 and each \
             next is one more"
                .into()
        },
        index: Index::InTable,
        because: "task 2 comes after task 0",
        command: || r#"read "hex:00 01 01 00 05 00 05 00 02 01 01 00 05 00 05 00""#.into(),
        answer: "refused 2 1",
    },
    Meaning {
        number: 3,
        when: || {
            "a kind is not 1 to 3, or differs inside a task, or a task of kind 1 has a second frame".into()
        },
        index: Index::InTable,
        because: "a sporadic task with a second frame",
        command: || r#"read "hex:00 01 01 00 05 00 05 00 00 01 01 00 05 00 05 00""#.into(),
        answer: "refused 3 1",
    },
    Meaning {
        number: 4,
        when: || "a task has a seventeenth frame".into(),
        index: Index::InTable,
        because: "seventeen frames of task 0",
        command: || format!("read hex:{}", "0003010005000500".repeat(17)),
        answer: "refused 4 16",
    },
    Meaning {
        number: 5,
        when: || "E, D or P is zero".into(),
        index: Index::InTable,
        because: "task 1 has E 0",
        command: || r#"read "hex:00 01 01 00 05 00 05 00 01 01 00 00 05 00 05 00""#.into(),
        answer: "refused 5 1",
    },
    Meaning {
        number: 6,
        when: || "a record of kind 2 has a D that is not its P, or a P unlike its task's first".into(),
        index: Index::InTable,
        because: "kind 2 with D 4 and P 5",
        command: || r#"read "hex:00 02 01 00 04 00 05 00""#.into(),
        answer: "refused 6 0",
    },
    Meaning {
        number: 7,
        when: || format!("t or a window that is asked about is above {}", grouped(HORIZON)),
        index: Index::Zero,
        because: "one above the limit",
        command: || format!(r#"margin "hex:00 01 01 00 05 00 05 00" {}"#, HORIZON + 1),
        answer: "refused 7 0",
    },
    Meaning {
        number: 8,
        when: || "a response is asked, and some frame of the table has D above its P".into(),
        index: Index::FirstInTable,
        because: "task 1, below the asked one, has D 6 and P 5",
        command: || r#"response "hex:00 01 01 00 05 00 05 00 01 01 01 00 06 00 05 00" 0 0"#.into(),
        answer: "refused 8 1",
    },
    Meaning {
        number: 9,
        when: || "the table has no such task or frame".into(),
        index: Index::Zero,
        because: "the only task is task 0",
        command: || r#"demand "hex:00 01 01 00 05 00 05 00" 1 5"#.into(),
        answer: "refused 9 0",
    },
    Meaning {
        number: 10,
        when: || {
            let (most, last) = (grouped(MOST_LIST_BYTES as u64), grouped(LAST_ARRIVAL));
            format!(
                "the list's length is not a multiple of 8 or above {most} bytes (then the index is 0); or a record's \
                 pad is not zero, its task or frame is unknown, its arrival is above {last}, or the order is broken: \
                 records are sorted by arrival, at equal arrivals by strictly rising task number"
            )
        },
        index: Index::InList,
        because: "a request of task 1, and the only task is task 0",
        command: || r#"list "hex:00 01 01 00 05 00 05 00" "hex:01 00 00 00 00 00 00 00""#.into(),
        answer: "refused 10 0",
    },
    Meaning {
        number: 11,
        when: || {
            "a task's next request has the wrong frame, or comes sooner than P of the earlier frame after it"
                .into()
        },
        index: Index::InList,
        because: "requests at 0 and 4, and P is 5",
        command: || {
            r#"list "hex:00 01 01 00 05 00 05 00" "hex:00 00 00 00 00 00 00 00 00 00 00 00 04 00 00 00""#
                .into()
        },
        answer: "refused 11 1",
    },
    Meaning {
        number: 12,
        when: || {
            "the place lies past the buffer's end, or the overload list has more bytes than the buffer has from there"
                .into()
        },
        index: Index::Zero,
        because: "a list of 8 bytes from place 1 of a buffer of 8",
        command: || r#"overload "hex:00 01 06 00 05 00 05 00" 8 1"#.into(),
        answer: "refused 12 0",
    },
    Meaning {
        number: 13,
        when: || "an overload list is asked of a table that is not overloaded".into(),
        index: Index::Zero,
        because: "the table fits",
        command: || r#"overload-list "hex:00 01 01 00 05 00 05 00""#.into(),
        answer: "refused 13 0",
    },
];
