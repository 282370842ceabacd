//! Mistakes that can be planted in the reference, one at a time, to see whether the comparison finds them.

/// Declares the mistakes: each with whether the daily balance alone has to show it too, and what it says.
macro_rules! mistakes {
    ($($name:ident $by_balance:literal $says:literal)*) => {
        #[derive(Clone, Copy, PartialEq, Debug)]
        pub enum Mistake {
            $($name),*
        }

        pub struct Declared {
            pub mistake: Mistake,
            pub by_balance: bool,
            pub says: &'static str,
        }

        pub const ALL: &[Declared] =
            &[$(Declared { mistake: Mistake::$name, by_balance: $by_balance, says: $says }),*];
    };
}

mistakes! {
    // Places and ids.
    PlaceNeverFree false "a place stays taken when its pair is no longer open"
    PlaceFreeAtClose false "a place comes free at the close, not at once"
    FullAt1023 false "the 1,024th pair is refused"
    RefusedIdSpent false "a refused enter spends its id"
    LastIdAgain false "the id accepted last is accepted again"
    // Late pairs.
    LateFromMatchingDay true "a late pair fails from its matching day on"
    LateOnMatchingDayToo true "the matching day gains the late fail beside its own"
    LateByRulesAToF false "the missed days go by the rules of a close"
    LateKind2OneEach false "the missed days of kind 2 go one SI to each side"
    LateIsdValueOnMatchingDay false "a late pair's ISD value stands on its matching day"
    // Parts, cancels and closes.
    PartsAsInstructions true "two parts of a day are counted as two pairs of SIs"
    PartSettledOnce true "a pair that settles a part and fails is counted once"
    SettledPartCancelled true "a part settled on the day of the cancel vanishes"
    CancelledStillFails true "a pair fails on the day of its cancel"
    FailsAtFullAmount true "a fail has the amount as its value, not the rest"
    IsdValueAtFullAmount false "the ISD value is of the amount, not of the rest"
    NotFailingOnIsd true "a pair fails from the day behind its ISD on"
    // The side of a fail.
    RuleAToCash false "kind 3 to cash"
    RuleBToSecurities false "kind 4 to securities"
    RuleCToSecurities false "both SIs of rule c to securities"
    RuleDOtherSide false "one hold of kind 1 to the other side"
    RuleEOtherSide false "a lack to the other side"
    RuleFToCash false "what no rule names to cash"
    BothHoldsInFull true "one SI to each side is both SIs to each side"
    Kind2NeedsBothHolds false "kind 2 goes to both sides with two holds only"
    LackBeforeHolds false "a lack is looked at before the holds"
    HoldEndsAtClose false "a hold ends with its day"
    LackEndsAtClose false "a lack ends with its day"
    // Refusals.
    HighestNumberFirst false "the highest number that applies comes back"
    ValuesBeforeFinished false "a bad value comes before a finished book"
    HoldIdOutOfRange false "a hold's id out of range is 2, not 5"
    LargePartOutOfRange false "a part over the largest amount is 2, not 8"
    OneHoldDoesNotStop false "a settle is stopped by two holds only"
    SettledBeforeIsd true "a settle before the ISD is accepted"
    AmountOneMore false "10,000,000,001 cents are accepted"
    Day63NotClosed false "the close of day 63 is refused"
    SideNotAlwaysGiven false "kinds 3 and 4 do without a side"
    // Participants.
    Code0Accepted false "code 0 is accepted"
    Code40Refused false "code 40 is refused"
    Code41Accepted false "code 41 is accepted"
    CodeCutToByte false "a code is cut to a byte before it is checked"
    CodeMakesWrong false "a code out of its range makes the line wrong"
    DelivererNotChecked false "the deliverer may have any code"
    ReceiverNotChecked false "the receiver may have any code"
    SameCodeRefused false "the same code at both ends is refused"
    // Lists of participants.
    OnlyDelivererCounted false "a pair is counted for its deliverer only"
    OnlyReceiverCounted false "a pair is counted for its receiver only"
    BothEndsCountedTwice false "a code at both ends is counted two times"
    OneInstructionEach false "each of two codes gets one SI of the pair, not both"
    SettledNotInTotal false "a participant's total is its fails"
    LateDaysNotOfParticipants false "a late pair's missed days are not counted for its participants"
    AverageOfDailyRates false "participants are ranked by the average of their daily rates"
    HighestDailyRate false "participants are ranked by their highest daily rate"
    RatesInHundredths false "rates are compared in hundredths of a percent"
    RatesAsFloats false "rates are compared as floating point numbers"
    ProductsIn64Bits false "the products of a comparison are cut to 64 bits"
    ByValueRankedByNumber false "the list by value is ranked by number"
    LowestRateFirst false "the lowest rate comes first"
    HigherCodeFirst false "of equal rates the higher code comes first"
    TiesCutAtTen false "who is level with the tenth is left out behind it"
    ElevenListed false "the eleventh is listed too"
    TenRatesListed false "ten rates are listed, however many have them"
    Total0Listed false "participants with total 0 are listed"
    NoFailsNotListed false "participants without fails are left out"
    Code40NotListed false "participant 40 is left out"
    LastDayNotInList false "a list leaves out its last day"
    OpenDaysPassedOver false "a list over days of which some are not closed has the closed ones"
    // Rows, each wrong in one place only.
    Category9As8 true "category 9 is booked as 8"
    Category9NotInAll true "category 0 leaves out category 9"
    NothingSettledOnDay0 true "what settles on day 0 is not counted"
    NoFailsOnLastDay true "the fails of the last closed day are not counted"
    LastRowNotGiven true "the last closed day has no row"
    // Reports.
    HalfDown false "a half is rounded down"
    RateIn64Bits false "the product of a rate is cut to 64 bits"
    AverageOfDurations false "the days' durations are averaged"
    AbsentDuration0 false "an absent duration is 0"
    LastDayLeftOut false "a report leaves out its last day"
    // Lines and files.
    TwelfthDigit false "a field may have 12 digits"
    LeadingZero false "a number may begin with 0"
    UnusedFieldFree false "an unused field may have any number"
    UnusedCodeFree false "calls other than an enter may have any codes"
    EnterWithoutCodes false "an enter without codes is taken, with code 1 at both ends"
    LineWithoutCodes false "calls other than an enter may leave out the zeros of their codes"
    CarriageReturn false "CR may stand before LF"
    LastLineWithoutLf false "a last line without LF is a call"
    EmptyLinesPassedOver false "an empty line is not counted"
    PlacesFromOne false "places count from 1"
    FullFileFaulty false "65,536 bytes are too many"
    OneByteOver false "65,537 bytes are not too many"
    NamesWithoutLf false "a names line without LF is right"
    NamesWithoutCodes false "the names line without codes is right too"
}

/// The mistake that is planted, if one is.
#[derive(Clone, Copy)]
pub struct Planted(pub Option<Mistake>);

impl Planted {
    pub const NONE: Planted = Planted(None);

    pub fn has(self, mistake: Mistake) -> bool {
        self.0 == Some(mistake)
    }

    /// What is right, or where the mistake is planted what is wrong.
    pub fn right_or<T>(self, mistake: Mistake, right: T, wrong: T) -> T {
        if self.has(mistake) {
            wrong
        } else {
            right
        }
    }
}
