//! The questions, each with all that it is asked with; and their words, for a call, for a line of a batch,
//! and for help.
use crate::arguments::Word;
use crate::question::{Form, Words};

pub type Table = Vec<u8>;
pub type List = Vec<u8>;
type Task = u64;
type Frame = u64;
type T = u64;
type W = u64;
type Buflen = u64;
type Place = u64;

#[derive(Debug, Clone, PartialEq, Eq)]
pub enum Question {
    Read(Table),
    Verdict(Table),
    Window(Table),
    Demand(Table, Task, T),
    Work(Table, Task, W),
    Margin(Table, T),
    Response(Table, Task, Frame),
    Responses(Table),
    OverloadSize(Table),
    Overload(Table, Buflen, Place),
    OverloadList(Table),
    List(Table, List),
    Replay(Table, List),
    Trace(Table, List),
}

pub static QUESTIONS: [Words; 14] = [
    Words {
        name: "read",
        form: Form::Table(Question::Read),
        example: "table tasks=2 records=5",
    },
    Words {
        name: "verdict",
        form: Form::Table(Question::Verdict),
        example: "fits window=8 margin=0 at=2",
    },
    Words {
        name: "window",
        form: Form::Table(Question::Window),
        example: "window 8",
    },
    Words {
        name: "demand",
        form: Form::Numbers(Word::Task, Word::T, Question::Demand),
        example: "demand 3",
    },
    Words {
        name: "work",
        form: Form::Numbers(Word::Task, Word::W, Question::Work),
        example: "work 5",
    },
    Words {
        name: "margin",
        form: Form::Number(Word::T, Question::Margin),
        example: "margin -1",
    },
    Words {
        name: "response",
        form: Form::Numbers(Word::Task, Word::Frame, Question::Response),
        example: "on-time value=14 rounds=4",
    },
    Words {
        name: "responses",
        form: Form::Table(Question::Responses),
        example: "0.0:on-time/value=1/rounds=0 1.0:late/value=10/round=2",
    },
    Words {
        name: "overload-size",
        form: Form::Table(Question::OverloadSize),
        example: "size 16",
    },
    Words {
        name: "overload",
        form: Form::Numbers(Word::Buflen, Word::Place, Question::Overload),
        example: "written 16 eeee00010000000000000100000000000000eeee",
    },
    Words {
        name: "overload-list",
        form: Form::Table(Question::OverloadList),
        example: "list 00010000000000000100000000000000",
    },
    Words {
        name: "list",
        form: Form::List(Question::List),
        example: "legal records=4",
    },
    Words {
        name: "replay",
        form: Form::List(Question::Replay),
        example: "miss tick=2 record=1",
    },
    Words {
        name: "trace",
        form: Form::List(Question::Trace),
        example: "trace 5124a38bf6732e64 miss tick=2 record=1",
    },
];
