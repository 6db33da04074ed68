//! Moments, and credentials as the desk sees them.
use super::ffi;
use std::time::{Duration, SystemTime, UNIX_EPOCH};

/// The last moment that the library has, at the end of the year 9999, from the start of 1970 on.
const LAST: Duration = Duration::new(253_402_207_200, 999_999_999);

/// A credential by the number that its keeper knows it by, with the moments before which it is good.
///
/// ```
/// use domreth::desk::Ticket;
/// use std::time::{Duration, SystemTime};
///
/// // Another is loaded from half an hour before its end on.
/// let lasts = SystemTime::now() + Duration::from_secs(3600);
/// let ticket = Ticket { number: 1, fresh: lasts - Duration::from_secs(1800), lasts };
/// assert!(ticket.fresh < ticket.lasts);
/// ```
#[derive(Clone, Copy, Debug, PartialEq, Eq)]
pub struct Ticket {
    /// The number. It is no other credential's for as long as a cache may hand this one out.
    pub number: u64,
    /// A cache hands it out before this moment.
    pub fresh: SystemTime,
    /// It lasts to every moment before this one.
    pub lasts: SystemTime,
}

impl From<Ticket> for ffi::Ticket {
    fn from(ticket: Ticket) -> Self {
        ffi::Ticket { number: ticket.number, fresh: ticket.fresh.into(), lasts: ticket.lasts.into() }
    }
}

impl From<ffi::Ticket> for Ticket {
    fn from(ticket: ffi::Ticket) -> Self {
        Ticket { number: ticket.number, fresh: ticket.fresh.into(), lasts: ticket.lasts.into() }
    }
}

impl From<SystemTime> for ffi::Moment {
    fn from(moment: SystemTime) -> Self {
        // The library has no moment of more seconds than fit, and says so.
        let seconds = |duration: Duration| i64::try_from(duration.as_secs()).unwrap_or(i64::MAX);
        // They are fewer than 10^9.
        let nanos = |duration: Duration| duration.subsec_nanos() as i32;
        match moment.duration_since(UNIX_EPOCH) {
            Ok(since) => ffi::Moment { second: seconds(since), nanos: nanos(since) },
            Err(before) => {
                let before = before.duration();
                ffi::Moment { second: -seconds(before), nanos: -nanos(before) }
            }
        }
    }
}

impl From<ffi::Moment> for SystemTime {
    fn from(moment: ffi::Moment) -> Self {
        let distance = Duration::new(moment.second.unsigned_abs(), moment.nanos.unsigned_abs());
        let at = if moment.second < 0 || moment.nanos < 0 {
            UNIX_EPOCH.checked_sub(distance)
        } else {
            UNIX_EPOCH.checked_add(distance)
        };
        // The library answers moments that were handed in, and later ones up to the year 9999.
        at.unwrap_or(UNIX_EPOCH)
    }
}

/// The moment, or the library's last one where that comes before it or there is no moment.
pub(crate) fn up_to_last(moment: Option<SystemTime>) -> SystemTime {
    let last = UNIX_EPOCH + LAST;
    moment.map_or(last, |moment| moment.min(last))
}

#[cfg(test)]
mod tests {
    use super::*;

    #[test]
    fn a_moment_crosses_and_comes_back() {
        let half = Duration::from_millis(500);
        for (moment, second, nanos) in [
            (UNIX_EPOCH, 0, 0),
            (UNIX_EPOCH + half * 3, 1, 500_000_000),
            (UNIX_EPOCH - half, 0, -500_000_000),
            (UNIX_EPOCH - half * 3, -1, -500_000_000),
            (UNIX_EPOCH + LAST, 253_402_207_200, 999_999_999),
        ] {
            let given = ffi::Moment::from(moment);
            assert_eq!((given.second, given.nanos), (second, nanos));
            assert_eq!(SystemTime::from(given), moment);
        }
    }

    #[test]
    fn what_never_ends_ends_at_the_last_moment() {
        let last = UNIX_EPOCH + LAST;
        for (moment, cut) in
            [(None, last), (Some(last + Duration::from_nanos(1)), last), (Some(UNIX_EPOCH), UNIX_EPOCH)]
        {
            assert_eq!(up_to_last(moment), cut);
        }
    }
}
