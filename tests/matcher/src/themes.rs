//! What cases are about, and how often.

use crate::stream::LETTERS;

/// What a case is about.
#[derive(Clone, Copy, Debug, PartialEq, Eq, Hash)]
pub enum Theme {
    Bench,
    Field,
    Limit,
    Edges,
    JudgeRefused,
    JudgeSmall,
    JudgeAdmitted,
    JudgeConflicted,
    JudgeShared,
    JudgeLarge,
    JudgeRepeats,
    FollowRefused,
    FollowWrongState,
    FollowNested,
    FollowBroken,
    FollowAdmitted,
    FollowLarge,
    FollowRepeats,
    FollowLong,
    WriteRefused,
    WriteNested,
    WriteBroken,
    WriteAdmitted,
    WriteLarge,
    WriteRepeats,
    WriteTooLong,
    WriteLongest,
    CheckRefused,
    CheckRecord,
    CheckChanged,
    CheckLarge,
    PromptRefused,
    PromptWrongState,
    PromptNested,
    PromptAdmitted,
    PromptLarge,
}

use Theme as T;

impl Theme {
    /// The letters of the calls that its cases make.
    pub fn letters(self) -> &'static str {
        match self {
            T::Bench | T::Field | T::Limit | T::Edges => LETTERS,
            T::JudgeRefused | T::JudgeSmall | T::JudgeAdmitted => "J",
            T::JudgeConflicted | T::JudgeShared | T::JudgeLarge | T::JudgeRepeats => "J",
            T::FollowRefused | T::FollowWrongState | T::FollowNested | T::FollowBroken => "F",
            T::FollowAdmitted | T::FollowLarge | T::FollowRepeats | T::FollowLong => "F",
            T::WriteRefused | T::WriteNested | T::WriteBroken | T::WriteAdmitted => "W",
            T::WriteLarge | T::WriteRepeats | T::WriteTooLong | T::WriteLongest => "W",
            T::CheckRefused | T::CheckRecord | T::CheckChanged | T::CheckLarge => "C",
            T::PromptRefused | T::PromptWrongState | T::PromptNested => "P",
            T::PromptAdmitted | T::PromptLarge => "P",
        }
    }
}

/// How many cases of each theme a round has.
pub const ROUND: [(Theme, usize); 36] = [
    (T::JudgeRefused, 12),
    (T::Bench, 20),
    (T::Field, 14),
    (T::Limit, 10),
    (T::Edges, 40),
    (T::JudgeSmall, 10),
    (T::JudgeAdmitted, 6),
    (T::JudgeConflicted, 8),
    (T::JudgeShared, 12),
    (T::JudgeLarge, 4),
    (T::JudgeRepeats, 3),
    (T::FollowRefused, 7),
    (T::FollowWrongState, 8),
    (T::FollowNested, 24),
    (T::FollowBroken, 22),
    (T::FollowAdmitted, 12),
    (T::FollowLarge, 4),
    (T::FollowRepeats, 4),
    (T::FollowLong, 1),
    (T::WriteRefused, 7),
    (T::WriteNested, 26),
    (T::WriteBroken, 12),
    (T::WriteAdmitted, 12),
    (T::WriteLarge, 3),
    (T::WriteRepeats, 3),
    (T::WriteTooLong, 1),
    (T::WriteLongest, 1),
    (T::CheckRefused, 7),
    (T::CheckRecord, 16),
    (T::CheckChanged, 24),
    (T::CheckLarge, 3),
    (T::PromptRefused, 7),
    (T::PromptWrongState, 5),
    (T::PromptNested, 14),
    (T::PromptAdmitted, 9),
    (T::PromptLarge, 3),
];

/// The procedures of 01's bench cases, and others that its wording settles.
pub const BENCH: [&str; 24] = [
    "a{2,4}",
    "(a{0,1}){0,3}",
    "(a{1,2}){3,4}",
    "((a+e)(b+e)){0,2}",
    "a{2,2}a",
    "a{0,2}a",
    "a{2,3}a",
    "(a{2,3}(b+e)){0,}",
    "(eb{0,1}){0,2}",
    "(a+e){3,3}",
    "a+ab",
    "(ab){1,2}",
    "e",
    "(a{2,2}){0,}",
    "a{3,}",
    "(#5 #1{0,1}){0,1}(#5+#1)",
    "e+e",
    "a{0,1}+b{0,1}",
    "(a+e){2,2}b",
    "((a+e){3,3}b{0,1}){0,2}",
    "((a+e){2,2}){0,2}",
    "(e(a+e){3,3}){1,2}",
    "(a+e){3,}b",
    "((a{0,1}b{0,1}){2,}c){0,2}",
];
