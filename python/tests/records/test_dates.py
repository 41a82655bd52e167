"""Dates in each language that a log may be in, with weekdays before or behind them."""
from __future__ import annotations

import datetime
import unittest

from nrm.records.dates import Dates

MONTHS = {  # the names of the twelve months, and a short form of each
    "English": ("January February March April May June July August September October November December",
                "Jan Feb Mar Apr May Jun Jul Aug Sept Oct Nov Dec"),
    "German": ("Januar Februar März April Mai Juni Juli August September Oktober November Dezember",
               "Jän. Feb. Mrz Apr. Mai Jun. Jul. Aug. Sep. Okt. Nov. Dez."),
    "French": ("janvier février mars avril mai juin juillet août septembre octobre novembre décembre",
               "janv. févr. mars avr. mai juin juil. août sept. oct. nov. déc."),
    "Spanish": ("enero febrero marzo abril mayo junio julio agosto septiembre octubre noviembre diciembre",
                "ene feb mar abr may jun jul ago set oct nov dic"),
    "Italian": ("gennaio febbraio marzo aprile maggio giugno luglio agosto settembre ottobre novembre dicembre",
                "gen feb mar apr mag giu lug ago set ott nov dic")}
FORMS = ["{day} {month} {year}", "{day}. {month} {year}", "{day}-{month}-{year}", "Fr {day} {month} {year} 10:22",
         "{day} de {month} de {year}", "ven. {day} {month} {year}", "{day}{month}{year}", "{month} {day}, {year}",
         "viernes, {day} {month} {year}", "{day} {month} {year} (Fri)", "Freitag, {month} {day}, {year}"]
WITH_WEEKDAYS = ["07.03.2025 Fr", "2025-03-07 (ven)", "2025-03-07, venerdì", "vendredi 07/03/2025",
                 "07/03/2025 viernes", "1er mars 2025", "1° marzo 2025", "Sábado, 1. März 2025"]
NONE = ["7 jui 2025", "7 ma 2025", "7 Nivose 2025", "31 février 2025", "2025-03-07 Kategorie", "7 Marchy 2025"]


class Languages(unittest.TestCase):
    def test_reads_months_in_letters(self) -> None:
        dates = Dates([])
        for language, names in MONTHS.items():
            for month, texts in enumerate(zip(*map(str.split, names)), 1):
                for text in [*texts, texts[0].upper()]:
                    for form in FORMS:
                        date = form.format(day="07", month=text, year=2025)
                        self.assertEqual(dates.day(date), datetime.date(2025, month, 7), f"{language}: {date}")

    def test_passes_over_weekdays(self) -> None:
        dates = Dates(WITH_WEEKDAYS, "dmy")
        days = [dates.day(it).day for it in WITH_WEEKDAYS]
        self.assertEqual(([it.month for it in map(dates.day, WITH_WEEKDAYS)], days), ([3] * 8, [7] * 5 + [1] * 3))

    def test_refuses_what_is_none(self) -> None:
        """A month that may be two, that is none, a day that the month doesn't have, and a word that is no weekday."""
        for it in NONE:
            with self.assertRaises(ValueError, msg=it):
                Dates([]).day(it)
