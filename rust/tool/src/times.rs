//! Message times made readable, each in its own format.

/// What a message's time counts, by the packet's flags.
#[derive(Clone, Copy, Debug, PartialEq, Eq)]
pub enum Form {
    /// The relative time counter: 48 bits, 10 MHz.
    Counter,
    /// High order time word, low order time word, microseconds word, and 16 zero bits.
    Chapter4,
    /// Seconds and nanoseconds since 1970-01-01 00:00:00 TAI.
    Ieee1588,
    /// A counter of nanoseconds.
    Extended,
}

/// The form that the flags name: bit 6 says whether times are absolute, bits 3 and 2 which ones. The reader refuses format 11.
pub fn form(flags: u8) -> Form {
    match (flags & 0x40, flags & 0x0C) {
        (0, _) => Form::Counter,
        (_, 0x00) => Form::Chapter4,
        (_, 0x04) => Form::Ieee1588,
        _ => Form::Extended,
    }
}

/// A time for people.
pub fn readable(form: Form, time: u64) -> String {
    match form {
        Form::Counter => format!("{} (counter {time})", seconds(time, 10_000_000, 7)),
        Form::Extended => format!("{} (counter {time})", seconds(time, 1_000_000_000, 9)),
        Form::Ieee1588 => {
            let (seconds, nanoseconds) = (time >> 32, time & 0xFFFF_FFFF);
            format!("{}.{nanoseconds:09} TAI", date_and_time(seconds))
        }
        // Chapter 11 doesn't give the weights of the words.
        Form::Chapter4 => format!(
            "high order time word {}, low order time word {}, microseconds word {}",
            time >> 48,
            time >> 32 & 0xFFFF,
            time >> 16 & 0xFFFF
        ),
    }
}

/// A count of units of which so many are a second, with so many decimals.
fn seconds(count: u64, units: u64, decimals: usize) -> String {
    format!("{}.{:0decimals$} s", count / units, count % units)
}

/// Seconds since 1970-01-01 00:00:00 as a date and a time of the same scale.
fn date_and_time(seconds: u64) -> String {
    let (days, second) = (seconds / 86_400, seconds % 86_400);
    let (year, month, day) = date(days);
    let (hour, minute, second) = (second / 3_600, second / 60 % 60, second % 60);
    format!("{year:04}-{month:02}-{day:02} {hour:02}:{minute:02}:{second:02}")
}

/// Year, month and day of a number of days since 1970-01-01. Years are counted from March on, so that a leap day is the last of its year.
fn date(days: u64) -> (u64, u64, u64) {
    // 719,468 days before 1970-01-01 is 1 March of the year 0; 146,097 days are 400 years.
    let days = days + 719_468;
    let (era, of_era) = (days / 146_097, days % 146_097);
    let year = (of_era - of_era / 1_460 + of_era / 36_524 - of_era / 146_096) / 365;
    let of_year = of_era - (365 * year + year / 4 - year / 100);
    let from_march = (5 * of_year + 2) / 153;
    let day = of_year - (153 * from_march + 2) / 5 + 1;
    let month = if from_march < 10 {
        from_march + 3
    } else {
        from_march - 9
    };
    let year = era * 400 + year + u64::from(month <= 2);
    (year, month, day)
}

#[cfg(test)]
mod tests {
    use super::*;

    #[test]
    fn flags_name_the_form() {
        // Bit 6 clear: the counter, whatever the format bits say of the secondary header.
        for flags in [0x00, 0x80, 0x84, 0x8B] {
            assert_eq!(form(flags), Form::Counter);
        }
        assert_eq!(form(0xC3), Form::Chapter4);
        assert_eq!(form(0xC4), Form::Ieee1588);
        assert_eq!(form(0xF9), Form::Extended);
    }

    #[test]
    fn times_are_readable() {
        let counter = |time| readable(Form::Counter, time);
        assert_eq!(counter(10_500_001), "1.0500001 s (counter 10500001)");
        assert_eq!(counter(0), "0.0000000 s (counter 0)");
        assert_eq!(
            counter(0xFFFF_FFFF_FFFF),
            "28147497.6710655 s (counter 281474976710655)"
        );
        assert_eq!(
            readable(Form::Extended, u64::MAX),
            "18446744073.709551615 s (counter 18446744073709551615)"
        );
        assert_eq!(
            readable(Form::Ieee1588, 1_794_740_400 << 32 | 5),
            "2026-11-15 11:00:00.000000005 TAI"
        );
        assert_eq!(
            readable(Form::Chapter4, 0x0012_3456_789A_0000),
            "high order time word 18, low order time word 13398, microseconds word 30874"
        );
    }

    /// Day by day from 1970-01-01 to the last that 32 bits of seconds hold, by the calendar's rules.
    #[test]
    fn dates_follow_the_calendar() {
        let (mut year, mut month, mut day) = (1970, 1, 1);
        for days in 0..=u64::from(u32::MAX) / 86_400 {
            assert_eq!(date(days), (year, month, day));
            let leap = year % 4 == 0 && (year % 100 != 0 || year % 400 == 0);
            let length = match month {
                2 => 28 + u64::from(leap),
                4 | 6 | 9 | 11 => 30,
                _ => 31,
            };
            day += 1;
            if day > length {
                (month, day) = (month + 1, 1);
            }
            if month > 12 {
                (year, month) = (year + 1, 1);
            }
        }
        assert_eq!(date_and_time(u64::from(u32::MAX)), "2106-02-07 06:28:15");
        assert_eq!(date_and_time(951_868_799), "2000-02-29 23:59:59");
    }
}
