//! Times in seconds, shown also as date and time or as days and hours.

const DAY: u64 = 86_400;

/// Seconds since the start of 1970, as a moment.
pub fn moment(seconds: u64) -> String {
    let (year, month, day) = date(seconds / DAY);
    let (hour, minute, second) = (seconds / 3600 % 24, seconds / 60 % 60, seconds % 60);
    format!("{seconds} s ({year:04}-{month:02}-{day:02} {hour:02}:{minute:02}:{second:02} UTC)")
}

/// Seconds as a length of time.
pub fn span(seconds: u64) -> String {
    let parts = [(seconds / DAY, "d"), (seconds / 3600 % 24, "h"), (seconds / 60 % 60, "min"), (seconds % 60, "s")];
    let words: Vec<String> = parts.iter().filter(|(n, _)| *n > 0).map(|(n, unit)| format!("{n} {unit}")).collect();
    match words.len() {
        0 => format!("{seconds} s"),
        1 if seconds < 60 => format!("{seconds} s"),
        _ => format!("{seconds} s ({})", words.join(" ")),
    }
}

/// Year, month and day of a day counted from the start of 1970. Years are counted from March, so that a leap day is the
/// last day of its year.
fn date(day: u64) -> (u64, u64, u64) {
    let from_march_0000 = day + 719_468;
    let era = from_march_0000 / 146_097;
    let day_of_era = from_march_0000 % 146_097;
    let year_of_era = (day_of_era - day_of_era / 1_460 + day_of_era / 36_524 - day_of_era / 146_096) / 365;
    let day_of_year = day_of_era - (365 * year_of_era + year_of_era / 4 - year_of_era / 100);
    let month_from_march = (5 * day_of_year + 2) / 153;
    let day_of_month = day_of_year - (153 * month_from_march + 2) / 5 + 1;
    let month = if month_from_march < 10 { month_from_march + 3 } else { month_from_march - 9 };
    let year = 400 * era + year_of_era + u64::from(month <= 2);
    (year, month, day_of_month)
}

#[cfg(test)]
mod tests {
    use super::*;

    #[test]
    fn moments() {
        assert_eq!(moment(0), "0 s (1970-01-01 00:00:00 UTC)");
        assert_eq!(moment(951_782_400), "951782400 s (2000-02-29 00:00:00 UTC)");
        assert_eq!(moment(1_709_251_199), "1709251199 s (2024-02-29 23:59:59 UTC)");
        assert_eq!(moment(4_107_542_400), "4107542400 s (2100-03-01 00:00:00 UTC)");
        assert_eq!(moment(253_402_300_799), "253402300799 s (9999-12-31 23:59:59 UTC)");
        assert_eq!(moment(u64::MAX), "18446744073709551615 s (584554051223-11-09 07:00:15 UTC)");
    }

    #[test]
    fn spans() {
        assert_eq!(span(0), "0 s");
        assert_eq!(span(59), "59 s");
        assert_eq!(span(604_800), "604800 s (7 d)");
        assert_eq!(span(90_061), "90061 s (1 d 1 h 1 min 1 s)");
    }
}
