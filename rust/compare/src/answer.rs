//! What all flat answers have: a refusal in front.
use desk::raw::{Amount, Ending, Listed, Loaded, Margin, Refusal, Response, Shape, Verdict, Window, Written};
use std::fmt::Debug;

pub trait Answer: PartialEq + Debug {
    fn refusal(&self) -> Refusal;
}

macro_rules! answers {
    ($($name:ty),*) => {
        $(impl Answer for $name {
            fn refusal(&self) -> Refusal {
                self.refusal
            }
        })*
    };
}

answers!(Shape, Amount, Margin, Window, Verdict, Response, Written, Listed, Ending, Loaded);
