//! What the numbers of refusals say.

/// The numbers' enum, and the words of each.
macro_rules! numbers {
    ($($name:ident = $number:literal, $words:literal;)*) => {
        /// What a number says, as `enum pechuvo_number` of the header has it.
        #[derive(Clone, Copy, Debug, PartialEq, Eq, Hash)]
        #[non_exhaustive]
        #[repr(u32)]
        pub enum Number {
            $(#[doc = $words] $name = $number,)*
        }

        impl Number {
            /// The number that an answer has, or `None` for one that the header has not.
            pub fn of(number: u32) -> Option<Number> {
                match number {
                    $($number => Some(Number::$name),)*
                    _ => None,
                }
            }

            /// What it says.
            pub fn words(self) -> &'static str {
                match self {
                    $(Number::$name => $words,)*
                }
            }
        }
    };
}

numbers! {
    Accepted = 0, "accepted: each part that the claim has passes its checks";
    MeshForm = 1, "mesh or table form: length, character, spelling, bytes missing or left over";
    MeshLimit = 2, "mesh or table number outside its limits; a soil of kind 1 on a mesh with 108 sides";
    NoRightAngle = 3, "p^2 + q^2 is not h^2";
    UnknownName = 4, "names a node or soil that isn't there";
    NoLeftTurn = 5, "not a left turn at all corners: four, or three of a triangle";
    SideTwice = 6, "a directed side that a lower element has";
    NodeUnused = 7, "in no element";
    WrongEdge = 8, "edge is no element's side, or its reverse is one, or an earlier edge has it";
    ClaimForm = 11, "claim form";
    ClaimLimit = 12, "claim number outside its limits";
    WrongParts = 13, "both parts absent; field with n = 0; no field and n or l not 0";
    EqualityFails = 21, "equality fails (balance, side and jump rows, counted together from 1)";
    StrengthFails = 22, "strength fails (strength rows, counted from 1, by pairs)";
    UnfixedMultiplier = 31, "nonzero multiplier on an unfixed row";
    ColumnSum = 32, "column sum not 0";
    LoadSum = 33, "m is 0 or less";
    ShortBuffer = 41, "report buffer under 113 bytes";
    TooManyPairs = 42,
        "brings the 101st pair of a node and a soil of the elements around it, or the 41st on a mesh with 108 \
         sides";
    WrongDecimals = 43, "number of decimals other than 0 to 7";
    WrongJump = 44,
        "jump: its two sides are not outer sides that face each other, or one is used by an edge or an earlier \
         jump";
    LayerMissing = 45, "table: the lowest height of the mesh in no layer, in quarters of a unit";
    WrongLayer = 46,
        "table: the first whose top isn't above its bottom; if there is none, the first that shares a height of \
         the mesh with an earlier one";
    ElementsOverlap = 47, "shares a point inside both with a lower element; touching is fine";
    BookTakesNone = 48,
        "the book takes no such call: the named count differs, the count is 1,000,000 or more, or a bound has a \
         denominator not above 0";
    NoNextStrength = 49,
        "no next strength: an input isn't finite and above 0, l1 = l2, or the result isn't finite and above 0";
}
