"""Who comes to the database: by TLS, to a server that its authority has signed, with the right password; and nobody is
told a password."""
from __future__ import annotations

from fleet.patroni_lines import PatroniTest
from fleet.patroni_nodes import PASSWORD, make_certificates
from fleet.standing import Fleet, asked
from server.serves import Server

WRONG = "Another-secret"
LINE = b"book LOC 1\n"


class Doors(PatroniTest):
    def refused(self, fleet: Fleet, uri: str, why: str) -> None:
        """A server and a command that come by a URI end with a sentence, in which no password stands."""
        server = Server(self.folder, uri, fleet.answering, "refused", next(self.runs), is_awaited=False)
        self.assertEqual(server.process.wait(60), 1, server.told())
        for told in server.told(), self.stopped("journal", "look", uri, "net"):
            self.want_in(told, why)
            self.assertNotIn("Traceback", told)
            self.assertFalse(WRONG in told or PASSWORD in told, f"a password is told: {told!r}")

    def test_who_comes_in(self) -> None:
        fleet = self.served()
        self.assertEqual(asked(fleet.servers.values(), LINE, 1), [b"ok 1"])
        uses = "SELECT DISTINCT ssl FROM pg_stat_ssl JOIN pg_stat_activity USING (pid) WHERE usename = 'fleet'"
        self.assertEqual(fleet.rows(uses), [(True,)])
        passwords = self.folder / "passwords"
        passwords.write_text(f"*:*:*:*:{WRONG}\n")
        passwords.chmod(0o600)
        other = self.folder / "other"
        other.mkdir()
        make_certificates(other, [])
        of_all, file = str(self.databases.folder / "ca.crt"), str(self.databases.folder / "passwords")
        for old, new, why in (
                (file, str(passwords), "password authentication failed"),
                (f"passfile={file}", f"password={WRONG}", "password authentication failed"),
                (file, str(self.folder / "nowhere"), "no password supplied"),
                (of_all, str(other / "ca.crt"), "certificate verify failed"),
                ("sslmode=verify-full", "sslmode=disable", "no encryption")):
            with self.subTest(new):
                self.assertIn(old, fleet.uri)
                self.refused(fleet, fleet.uri.replace(old, new), why)
        for server in fleet.servers.values():
            self.assertNotIn(PASSWORD, server.told())
