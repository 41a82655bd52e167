"""Every refused line of a certificate is told, and how to mend it."""
from __future__ import annotations

from harness import EXAMPLES, PlaceTest

LINES_AT_FAULT = [  # of a certificate's lines, what is put in their place, and a part of the advice
    ("\ufeffvalue 4130,5", "write `value` and a fraction, without the byte order mark before it, such as 3/2"),
    ("product abh 3/1", "write `product ABH 3/1`"),
    ("product ABL 3/1 ", "write `product ABL 3/1`"), ("product;ACH;4", "write `product ACH 4/1`"),
    ("", "can't have blank lines or comments"), ("# seats", "can't have blank lines or comments"),
    ("product BCL 06/01", "write `product BCL 6/1`"), ("product ACL", "write `product ACL` and a fraction"),
    ("product ACL 0/0", "write `product ACL` and a fraction"), ("LEG AB 150/1", "write `leg AB 150/1`"),
    ("leg CD 1/1", "it must be"), ("leg BC 80.00", "a decimal must be"), ("nest AB ABH 400/1 1", "under davn"),
    ("protect AB 5", "under davn")]


class Certificates(PlaceTest):
    def test_tells_every_line_of_a_certificate(self) -> None:
        lines = (EXAMPLES / "certificate" / "certificate.txt").read_text().splitlines()
        value, first, *rest = lines
        path = self.file("cert", "\n".join([value.replace("/", ","), first, first, "leg NONE 1/1", *rest[:-1], ""]))
        out, _, status = self.ran("explain", EXAMPLES / "certificate" / "network.csv", path)
        told = [it for it in out.splitlines() if it.startswith("refused")]
        self.assertEqual((told, status),
                         (["refused certificate line 1", "refused certificate line 3", "refused certificate line 4",
                           f"refused certificate no {rest[-1].rpartition(' ')[0]}"], 3))

    def test_tells_how_to_mend_a_line(self) -> None:
        """And of no line that it is missing which stands there with a fault."""
        network, text = EXAMPLES / "certificate" / "network.csv", "".join(f"{it}\r\n" for it, _ in LINES_AT_FAULT)
        out, _, status = self.ran("explain", network, self.file("cert", text))
        found = out.splitlines()
        self.assertEqual((found[:-2:2], status),
                         ([f"refused certificate line {at}" for at, _ in enumerate(LINES_AT_FAULT, 1)], 3))
        for told, (_, advice) in zip(found[1::2], LINES_AT_FAULT):
            self.want_in(told, advice)
        out = self.ran("explain", network, self.file("cert", text.encode("utf-16")))[0]
        self.want_in(out, "iconv -f UTF-16")
        self.assertEqual(out.count("refused"), 2)  # the line, and that no row is
