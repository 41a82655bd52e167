"""The dates of a log, in whichever form they are written, and spans of days."""
from __future__ import annotations

import datetime
import re
import unicodedata
from typing import Iterable, Sequence

from nrm import Stop

WEEKDAYS = ["mon", "tue", "wed", "thu", "fri", "sat", "sun"]
MONTHS = [names.split() for names in (  # in English, German, French, Spanish and Italian, without accents
    "january januar janner janvier enero gennaio", "february februar feber fevrier febrero febbraio",
    "march marz maerz mrz mars marzo", "april avril abril aprile", "may mai mayo maggio", "june juni juin junio giugno",
    "july juli juillet julio luglio", "august aout agosto", "september septembre septiembre setiembre settembre",
    "october oktober octobre octubre ottobre", "november novembre noviembre",
    "december dezember decembre diciembre dicembre")]
DAYS_IN_LETTERS = (
    "monday tuesday wednesday thursday friday saturday sunday montag dienstag mittwoch donnerstag freitag samstag "
    "sonnabend sonntag lundi mardi mercredi jeudi vendredi samedi dimanche lunes martes miercoles jueves viernes "
    "sabado domingo lunedi martedi mercoledi giovedi venerdi sabato domenica").split()
TIME = re.compile(r"(?:(?:T|,? +)\d{1,2}(?::\d{2}.*|h\d{2}|\.\d{2}(?:\.\d{2})?)|-\d{2}\.\d{2}\.\d{2}(?:\.\d+)?)$")
WEEKDAY = re.compile(r"[^\W\d_]{2,10}[.,]* +(?=\d)")  # in any language, before the date
WEEKDAY_BEFORE_MONTH = re.compile(r"([^\W\d_]{2,10})[.,]* +(?=[^\W\d_])")
WEEKDAY_BEHIND = re.compile(r"(?<=\d)[ ,]+\(?([^\W\d_]{2,10})\.?\)?$")
MONTH_FIRST = re.compile(r"(?P<month>[^\W\d_]{3,10})[ .]+(?P<day>\d{1,2}),? +(?P<year>\d{4})")
FORMS = [re.compile(it) for it in (
    r"(?P<year>\d{4})([-/.]) ?(?P<month>\d{1,2})\2 ?(?P<day>\d{1,2})\.?",
    r"(?P<year>\d{4})(?P<month>\d{2})(?P<day>\d{2})(?:\d{4}(?:\d{2})?)?",  # and the time
    r"(?P<day>\d{1,2})\. ?(?P<month>\d{1,2})\. ?(?P<year>\d{4})",
    r"(?P<day>\d{1,2})(?:er|º|°)?[- .]*(?:de )?(?P<month>[^\W\d_]{3,10}?)(?:[- .,]+del? |[- .,]*)"
    r"(?P<year>\d{4}|\d{2})")]
EITHER_WAY = re.compile(r"(\d{1,2})([/-])(\d{1,2})\2(\d{4})")
SHORT_YEAR = re.compile(r"\d{1,2}([./-]) ?\d{1,2}\1 ?\d{2}")


def without_time(text: str) -> str:
    """A date without the weekday before or behind it and the time behind it."""
    text = TIME.sub("", text)
    if (behind := WEEKDAY_BEHIND.search(text)) and is_weekday(behind[1]):
        text = text[:behind.start()]
    if before := WEEKDAY.match(text):
        return text[before.end():]
    before = WEEKDAY_BEFORE_MONTH.match(text)
    return text[before.end():] if before and is_weekday(before[1]) else text


def has_short_year(text: str) -> bool:
    """Whether a date has a year of two digits, so that it can't be told which of them is the year."""
    return SHORT_YEAR.fullmatch(without_time(text)) is not None


class Dates:
    """Reads the dates of a log, of which those that can be read two ways are all read the same way."""

    def __init__(self, texts: Iterable[str], order: str | None = None) -> None:
        twofold = [found for found in (EITHER_WAY.fullmatch(without_time(it)) for it in texts) if found]
        self.order = order or (order_shown_by(twofold) if twofold else None)
        self.known: dict[str, datetime.date] = {}

    def day(self, text: str) -> datetime.date:
        """The day that a text says; a ValueError where it says none."""
        if text not in self.known:
            self.known[text] = self.read(text)
        return self.known[text]

    def read(self, text: str) -> datetime.date:
        """The day that a text says, read anew."""
        for it in (TIME.sub("", text), without_time(text)):
            if found := MONTH_FIRST.fullmatch(it):
                return date_of(**found.groupdict())
        text = without_time(text)
        if found := next(filter(None, (it.fullmatch(text) for it in FORMS)), None):
            return date_of(**found.groupdict())
        if found := EITHER_WAY.fullmatch(text):
            day, month = (found[1], found[3]) if self.order == "dmy" else (found[3], found[1])
            return date_of(day, month, found[4])
        raise ValueError(text)


def date_of(day: str, month: str, year: str) -> datetime.date:
    """A day by its texts: the month in digits or letters, of the year perhaps the last two digits alone."""
    number = int(month) if month.isdigit() else month_of(month)
    return datetime.date(int(year) + (2000 if len(year) == 2 else 0), number, int(day))


def plain(text: str) -> str:
    """A text in small letters and without accents."""
    return "".join(it for it in unicodedata.normalize("NFKD", text.lower()) if not unicodedata.combining(it))


def month_of(text: str) -> int:
    """The month whose name in one of the languages begins so; a ValueError where there is none, or more than one."""
    [found] = {at for at, names in enumerate(MONTHS, 1) if any(it.startswith(plain(text)) for it in names)}
    return found


def is_weekday(text: str) -> bool:
    """Whether the name of a weekday in one of the languages begins so."""
    return any(it.startswith(plain(text)) for it in DAYS_IN_LETTERS)


def order_shown_by(twofold: Sequence[re.Match[str]]) -> str:
    """The order of day and month that dates show, of which either can be first."""
    day_first, month_first = (next((it[0] for it in twofold if int(it[at]) > 12), None) for at in (1, 3))
    if bool(day_first) != bool(month_first):
        return "dmy" if day_first else "mdy"
    why = (f"{day_first} has the day first, and {month_first} the month" if day_first
           else f"{twofold[0][0]} can be read with the day or the month first")
    raise Stop(f"of the dates, {why}; use --dates dmy or --dates mdy, or write them like 2025-03-07")


def spans_of(days: Iterable[datetime.date]) -> list[str]:
    """Days in texts, those that follow one another as one."""
    spans: list[list[datetime.date]] = []
    for day in days:
        if spans and day - spans[-1][1] == datetime.timedelta(1):
            spans[-1][1] = day
        else:
            spans.append([day, day])
    return [str(first) if first == last else f"{first} to {last}" for first, last in spans]


def departures_told(days: Sequence[datetime.date], most: int) -> str:
    """How many days of departure there are, from which to which, and those between that have none, so many at most."""
    known, departing = set(days), {it.weekday() for it in days}
    between = [days[0] + datetime.timedelta(it) for it in range(1, (days[-1] - days[0]).days)]
    spans = spans_of(it for it in between if it not in known and it.weekday() in departing)
    more = [f"and {len(spans) - most} more times"] if len(spans) > most else []
    never = [WEEKDAYS[it] for it in sorted({it.weekday() for it in between} - departing)]
    without = [", ".join([*spans[:most], *more]), f"each {', '.join(never)}" if never else ""]
    return (f"departures on {len(days)} days, from {days[0]} to {days[-1]}; days between without one: "
            f"{'; '.join(filter(None, without)) or 'none'}")
