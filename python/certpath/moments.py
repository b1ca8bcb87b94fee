"""Moments, as datetimes and as the library has them."""
from datetime import date, datetime, timezone
from typing import Any

from . import arguments, library

# The greatest numbers of the C types of a moment's fields, int16_t and int8_t.
MOST = {"year": 32767, "month": 127, "day": 127, "hour": 127, "minute": 127, "second": 127}
NOW = "datetime.now(timezone.utc)"


def remedy_for(value: Any) -> str:
    """How to have a datetime in the place of a value."""
    if value is None:
        return f"{NOW} is the present"
    if isinstance(value, str):
        return "datetime.fromisoformat() reads one"
    if isinstance(value, date):
        return "datetime(2027, 1, 1, tzinfo=timezone.utc) is the begin of a day"
    if isinstance(value, (int, float)):
        return "datetime.fromtimestamp(.., timezone.utc) gives one"
    return f"as {NOW}"


def moment_of(at: datetime) -> library.Moment:
    """A moment in UTC, without its parts of a second. One without a time zone is taken as UTC.

    TypeError of what is no datetime, BadMoment of one that has no year from 1 to 9999 in UTC.
    """
    if not isinstance(at, datetime):
        raise TypeError(f"at: a datetime is needed, not {arguments.type_name(at)}; "
                        f"{remedy_for(at)}")
    try:
        utc = at if at.utcoffset() is None else at.astimezone(timezone.utc)
    except OverflowError:
        raise library.BadMoment("at: in UTC its year isn't from 1 to 9999") from None
    return library.Moment(*(arguments.number(getattr(utc, name), f"at.{name}", most,
                                             library.BadMoment) for name, most in MOST.items()))


def datetime_of(moment: library.Moment) -> datetime:
    """A moment of an item, of the years 1950 to 9999 (RFC 5280, 4.1.2.5), as a datetime in UTC."""
    return datetime(moment.year, moment.month, moment.day, moment.hour, moment.minute,
                    moment.second, tzinfo=timezone.utc)
