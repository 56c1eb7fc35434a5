//! Wrong versions: the plain program with one rule taken otherwise.

use crate::plain::{Rules, RIGHT};

macro_rules! wrong {
    ($($name:literal: $rule:ident = $value:expr;)*) => {
        /// Every wrong version by its name.
        pub const ALL: &[(&str, Rules)] = &[$(($name, Rules { $rule: $value, ..RIGHT })),*];
    };
}

wrong! {
    "CarriageKept": carriage_belongs_to_the_end = false;
    "LastCarriageDropped": last_carriage_is_a_byte = false;
    "EmptyLinesUncounted": empty_lines_are_counted = false;
    "QuoteInPlain": quote_in_plain_is_stray = false;
    "BytesBehindQuote": bytes_behind_a_quote_are_stray = false;
    "QuotesOverLines": quotes_end_with_the_line = false;
    "QuotesKept": quotes_are_taken_off = false;
    "ColumnTwice": columns_may_not_repeat = false;
    "OtherColumnOnce": other_columns_may_repeat = false;
    "EmptyLineFirst": line_1_may_not_be_empty = false;
    "StrayHeaderIs12": names_before_a_fault_count = false;
    "NamesBehindStray": names_behind_a_fault_count = true;
    "NamesTrimmed": names_are_exact = false;
    "HoursTo48": most_hours = 48;
    "HoursTo46": most_hours = 46;
    "HoursTo99": most_hours = 99;
    "MinutesTo99": most_minutes = 99;
    "VertexTo65536": most_vertex = 65_536;
    "VertexTo65534": most_vertex = 65_534;
    "LongSequence": most_sequence = u64::MAX;
    "ShortSequence": most_sequence = u32::MAX as u64 - 1;
    "OneDigitMinutes": one_digit_minutes = true;
    "NoLeadingZeros": leading_zeros = false;
    "PlusSign": plus_sign = true;
    "SpaceIsBlank": space_is_blank = true;
    "OneTimeIsNone": one_time_stands_for_both = false;
    "MoreFields": more_fields_are_refused = false;
    "FewerFields": fewer_fields_are_refused = false;
    "LaterLineCounts": first_line_of_an_id_counts = false;
    "KnownIdNotJudged": bad_line_of_a_known_id_is_bad = false;
    "ListsLast": lists_come_first = false;
    "TripListFirst": stop_list_comes_first = false;
    "LongListLine": list_has_two_fields = false;
    "TripsByNumber": trips_by_id = false;
    "SequenceAsText": sequence_is_a_number = false;
    "RepeatAtEarlier": repeat_at_the_later_line = false;
    "LineBeforeNumber": number_before_line = false;
    "FirstUntimed": first_stop_is_timed = false;
    "LastUntimed": last_stop_is_timed = false;
    "SingleUntimed": single_stop_is_timed = false;
    "DepartureBeforeArrival": times_at_one_stop = false;
    "OneVertexNotJudged": times_at_one_vertex = false;
    "EqualIsLate": equal_is_in_time = false;
    "FallAtEarlier": fall_at_the_later_stop = false;
    "FirstFoundOf16": lowest_line_of_16 = false;
    "UntimedBreaks": hop_over_untimed = false;
    "HopAtOneVertex": no_hop_at_one_vertex = false;
    "LeavesAtArrival": hop_leaves_at_departure = false;
    "ByLineOfArrival": hops_by_line_of_departure = false;
    "ByFrom": hops_by_to = false;
    "NoTrips": hops_have_trips = false;
    "RoomFirst": room_comes_last = false;
    "HalfWritten": refusal_16_clears = false;
    "FilledWithoutRoom": refusal_17_clears = false;
    "ListLeavesTarget": refusal_29_clears = false;
    "LengthClears": refusal_1_changes_nothing = false;
    "TailKept": rest_is_zero = false;
    "OneRecordMore": most_records = RIGHT.most_records + 1;
    "OneRecordLess": most_records = RIGHT.most_records - 1;
    "LengthLast": lengths_come_first = false;
    "IdsBeyondUnknown": ids_of_a_list = 250;
    "StopsByTheHundred": stops_of_a_trip = 100;
    "RepeatsByTheHundred": stops_for_repeats = 100;
    "JudgedWithinRoom": judged_beyond_room = false;
    "RoomForLines": room_is_for_hops = false;
}

/// The wrong version of a name.
pub fn named(name: &str) -> Option<&'static Rules> {
    ALL.iter().find(|version| version.0 == name).map(|version| &version.1)
}
