"""A word that is wrong is told with what is wanted in its place, and never by the name of a function."""
from __future__ import annotations

import argparse
import os
from unittest import mock

from harness import EXAMPLES, SOURCES, WithinTest
from nrm import Stop
from nrm.__main__ import main
from nrm.commands import NAMED
from nrm.commands.completion import parser_of
from nrm.libraries import DEBIANS_PYTHON
from records.made_log import COLUMNS

AUTHORISE = ["authorise", "n.csv", "--show", "0.9", "--denied-cost", "5"]
LOG = ["log", "l.csv", *COLUMNS, "--cuts", "7"]
DEMAND = ["demand", *LOG[1:], "--closures", "c.csv"]
SERVE = ["serve", "j", "--socket", "s"]
WRONG = [  # the words, and what is said of the last of them
    (["simulate", "n.csv", "--seasons", "0"], "--seasons: '0' isn't a whole number from 1 to 10,000,000"),
    (["simulate", "n.csv", "--seasons", "many"], "--seasons: 'many' isn't a whole number"),
    (["simulate", "n.csv", "--seasons", "2", "--workers", "0"], "'0' isn't a whole number from 1 to 1,024"),
    (["simulate", "n.csv", "--seasons", "2", "--parties", "1:2:3"],
     "'1:2:3' isn't a list of sizes from 1 to 999, each with its weight, such as 1:80,2:15,4:5"),
    (["simulate", "n.csv", "--seasons", "2", "--parties", "1000:1"], "'1000:1' isn't a list of sizes from 1 to 999"),
    (["simulate", "n.csv", "--seasons", "2", "--cancel", "1.5"],
     "--cancel: '1.5' isn't a number from 0 to 1, such as 0.05"),
    (["simulate", "n.csv", "--seasons", "2", "--show", "half"], "'half' isn't a number from 0 to 1, such as 0.05"),
    (["simulate", "n.csv", "--seasons", "2", "--cancel", "nan"], "'nan' isn't a number from 0 to 1"),
    (["authorise", "n.csv", "--denied-cost", "5", "--show", "1.5"], "--show: '1.5' isn't a number from 0 to 1"),
    (["authorise", "n.csv", "--denied-cost", "5", "--show", "."], "--show: '.' isn't a number from 0 to 1"),
    ([*AUTHORISE, "--service", "1e-3"], "--service: '1e-3' isn't a number from 0 to 1"),
    ([*AUTHORISE, "--seasons", "1"], "--seasons: '1' isn't a whole number from 2 to 10,000,000"),
    (["thresholds", "n.csv", "0"], "'0' isn't a whole number from 1 to 10"),
    (["thresholds", "n.csv", "few"], "'few' isn't a whole number"),
    (["replay", "n.csv", "--seed", "x"], "--seed: 'x' isn't a whole number"),
    (["averaged", "n.csv", "--seasons", "1"], "--seasons: '1' isn't a whole number from 2 to 10,000,000"),
    (["asked", "n.csv", "s.txt", "--last", "x"], "--last: 'x' isn't a whole number"),
    ([*LOG, "--last", "x"], "--last: 'x' isn't a whole number"),
    ([*LOG, "--leave-out", "x"], "--leave-out: 'x' isn't a whole number"),
    ([*DEMAND, "--opens", "-1"], "--opens: '-1' isn't a whole number from 0 to 100,000"),
    ([*DEMAND, "--copies", "x"], "--copies: 'x' isn't a whole number"),
    ([*DEMAND, "--seed", "-1"], "--seed: '-1' isn't a whole number from 0 to "),
    (["why", "j", "n", "--booking", "0"], "--booking: '0' isn't a whole number from 1 to "),
    (["why", "j", "n", "no"], "NUMBER: 'no' isn't a whole number from 1 to "),
    (["why", "n.csv", "best", "s.txt", "1"], "MODE: 'best' isn't one of: first, bid, davn"),
    ([*SERVE, "--mode", "9"], "--mode: '9' isn't a file mode in octal digits, such as 660"),
    ([*SERVE, "--clients", "0"], "--clients: '0' isn't a whole number from 1 to 999,999,999"),
    ([*SERVE, "--unsent", "1e6"], "--unsent: '1e6' isn't a whole number"),
    ([*SERVE, "--idle", "0"], "--idle: '0' isn't a number of seconds above 0 and below 1,000,000,000"),
    ([*SERVE, "--linger", "nan"], "--linger: 'nan' isn't a number of seconds above 0"),
    ([*SERVE, "--every", "59"], "--every: '59' isn't a time of at least 60 seconds, such as 90, 30m or 2h"),
    ([*SERVE, "--followers", "-1"], "--followers: '-1' isn't a whole number from 0 to 999,999,999"),
    ([*SERVE, "--name", "a b"], "--name: 'a b' isn't 1 to 100 characters of ASCII without blanks"),
    ([*SERVE, "--log", "xml"], "--log: 'xml' isn't one of: text, json, systemd"),
    (["status", "s", "--seconds", "soon"], "--seconds: 'soon' isn't a number of seconds above 0"),
    (["web", "j", "--socket", "s", "--listen", "l", "--host", "a b"],
     "--host: 'a b' isn't the name or address of a host, without a port"),
    (["journal", "look", "j", "n", "no"], "NUMBER: 'no' isn't a whole number of at most 15 digits"),
    (["journal", "look", "j", "n", "--booking", "no"], "--booking: 'no' isn't a whole number of at most 15 digits"),
    (["journal", "open", "j", "n", "best", "f"], "MODE: 'best' isn't one of: first, bid, davn"),
    (["journal", "open", "j", "n"], "`open` takes 3 words after JOURNAL, and 1 were given"),
    (["journal", "begin", "j", "--departure", "t"], "--departure and --begins can be used with `open` and `times` only"),
    (["journal", "shut", "j"], "WAY: 'shut' isn't one of: begin, open, times, "),  # below, what argparse itself finds
    (["serve"], "JOURNAL must be given"), (["optimum"], "NETWORK, LEG must be given"),
    (["simulate", "n.csv"], "--seasons must be given"), (["lp", "n.csv", "--no", "x"], "doesn't take --no x"),
    (["replay", "n.csv", "--seed"], "--seed needs a value"), (["simulate", "--modes"], "--modes needs at least one value"),
    (["simulate", "--tls", "a"], "--tls needs 3 values"), (["serve", "j", "--alone=x"], "--alone takes no value"),
    (["serve", "j", "--pass-on", "--send-on"], "--send-on can't be used with --pass-on"),
    (DEMAND[:-2], "one of --closures --readings must be given"), (["serve", "j", "--s"], "--s could be any of --s")]


class Words(WithinTest):
    def test_each_is_told_with_what_is_wanted(self) -> None:
        for words, says in WRONG:
            done = self.exited(*words)
            self.assertEqual(done.status, 2, f"{words}: {done.err}")
            self.want_in(done.err, says)
            last = done.err.splitlines()[-1]
            self.assertEqual([it for it in ("invalid", "argument ", "arguments", "expected", "None") if it in last], [], last)

    def test_each_that_has_a_form_says_which(self) -> None:
        """No word is refused by the name of the function that reads it, which is what argparse says of a ValueError."""
        forms = [(name, it.type) for name in NAMED for it in parser_of(name)._actions if callable(it.type)]
        self.assertGreater(len(forms), 40)
        for name, form in forms:
            with self.assertRaises((argparse.ArgumentTypeError, Stop), msg=name):
                form("\0 no such word")


class Elsewhere(WithinTest):
    """Where this Python lacks what draws, and Debian's has it, a command goes on under that one."""
    SEASON = ["season", str(EXAMPLES / "log" / "network.csv"), str(EXAMPLES / "log" / "commands.txt")]

    def goes_on(self, words: list[str], debian_has: bool = True) -> list[list[str]]:
        """What a command is gone on as, under a Python that has none of the libraries."""
        gone = mock.Mock(side_effect=SystemExit(0))
        with mock.patch("os.execv", gone), mock.patch("importlib.util.find_spec", return_value=None), \
                mock.patch("os.path.isdir", side_effect=lambda path: debian_has and "dist-packages" in path), \
                mock.patch("os.access", return_value=True), \
                mock.patch("nrm.commands.running.is_debians", return_value=False):
            try:
                with open(os.devnull, "w", encoding="ascii") as null, mock.patch("sys.stdout", null), \
                        mock.patch("sys.stderr", null):
                    main(words)
            except SystemExit:
                pass
        return [it.args[1] for it in gone.call_args_list]

    def test_season_goes_on_as_simulate_does(self) -> None:
        network = self.SEASON[1]
        for words in (self.SEASON, ["simulate", network, "--seasons", "2"],
                      ["optimum", network, "ZRH-VIE", "--out", "o"], ["thresholds", network, "2", "--pictures", "o"]):
            self.assertEqual(self.goes_on(words), [[DEBIANS_PYTHON, str(SOURCES), *words]])
        for words in (["optimum", network, "ZRH-VIE"], ["thresholds", network, "2"]):
            self.assertEqual(self.goes_on(words), [], "nothing is drawn")

    def test_it_stays_where_debians_python_lacks_it_too(self) -> None:
        self.assertEqual(self.goes_on([*self.SEASON, "--out", "o", *self.with_program], debian_has=False), [])
