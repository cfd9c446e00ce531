//! Which errors there are.

#[derive(Clone, Copy, PartialEq, Eq, Debug)]
pub enum Flaw {
    /// None at all: what is bent here must be bent by the flaws alone.
    Nothing,
    // In reading a list.
    UnknownCodeAsCount,
    FeedAsMargin,
    BigEndian,
    RestBeforeCode,
    FloatBeforeRest,
    LengthFirst,
    ExtraFirst,
    ExtraNotRefused,
    CountOfNoneAccepted,
    CountCutToRoom,
    CountOf64Refused,
    PlaceOfValue,
    PlaceOfEnd,
    PlacePastExtra,
    PlaceCutToByte,
    PlusZeroAccepted,
    MinusZeroAccepted,
    NegativeAccepted,
    InfinityAccepted,
    NoNumberAccepted,
    SubnormalRefused,
    LargestRefused,
    KeptOnRefusal,
    LeftPastNumber,
    // In the lines.
    Rounded,
    MultipliedAsFloat,
    CutNotSaid,
    CutAlwaysSaid,
    TinyNotSaid,
    LargeBeforeItsLimit,
    LargeAfterItsLimit,
    BracketWithoutSeconds,
    BitsWithoutZeros,
    CountSigned,
    CountOf32Bits,
    NumberedFromZero,
    LinesBeforeRefusal,
    // In writing back.
    BytePastEnd,
    ShortBufferFilled,
    BufferCleared,
    ExactRoomRefused,
    PlaceOfRoom,
    RoomBeforeNumber,
    NoneWritten,
    NumberCutToRoom,
    NumberOfList,
    WrittenIsRoom,
}

#[rustfmt::skip]
pub const FLAWS: [Flaw; 47] = {
    use Flaw::*;
    [
        UnknownCodeAsCount, FeedAsMargin, BigEndian, RestBeforeCode, FloatBeforeRest, LengthFirst, ExtraFirst,
        ExtraNotRefused, CountOfNoneAccepted, CountCutToRoom, CountOf64Refused, PlaceOfValue, PlaceOfEnd,
        PlacePastExtra, PlaceCutToByte, PlusZeroAccepted, MinusZeroAccepted, NegativeAccepted, InfinityAccepted,
        NoNumberAccepted, SubnormalRefused, LargestRefused, KeptOnRefusal, LeftPastNumber,
        Rounded, MultipliedAsFloat, CutNotSaid, CutAlwaysSaid, TinyNotSaid, LargeBeforeItsLimit, LargeAfterItsLimit,
        BracketWithoutSeconds, BitsWithoutZeros, CountSigned, CountOf32Bits, NumberedFromZero, LinesBeforeRefusal,
        BytePastEnd, ShortBufferFilled, BufferCleared, ExactRoomRefused, PlaceOfRoom, RoomBeforeNumber, NoneWritten,
        NumberCutToRoom, NumberOfList, WrittenIsRoom,
    ]
};
