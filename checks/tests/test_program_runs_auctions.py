"""The program on the logs of auctions, its own and others: `auction`, `award`, `audit` and `make`."""
import unittest
from checks.cases.program import run, with_program
from checks.cases.samples import lines, sample
from test_auction import ROW
from test_program_runs import Case

AWARD = sample("sample.award")
FIRST, SECOND = "bid,east,3, / bid,west,2, / close,,,", "bid,east,1, / bid,west,2, / close,,,"
CLOCK, CLOCK_REPLIES = f"{FIRST} / {SECOND}", "1 ok / 2 ok / 3 round 2 12 / 4 ok / 5 ok / 6 sealed"
# East's first list is above a cap; it lowers an entry, or drops it.
LOWERED, DROPPED = lines(ROW), lines(ROW.replace("draft,east,3,44", "drop,east,3,"))
REPLIES = f"{CLOCK_REPLIES} / 7 ok / 8 ok / 9 relative-cap 2 44 / 10 ok / 11 ok / 12 closed"
TWO_LISTS_REPLIES = f"{CLOCK_REPLIES} / 7 ok / 8 ok / 9 ok / 10 ok / 11 closed"
LOWERED_BOOK = "book 1 / supply 3 / reserve 10 / bidder east / bid 1 20 / bid 3 44 / bidder west / bid 2 24 / end"
DROPPED_BOOK = "book 1 / supply 3 / reserve 10 / bidder east / bid 1 20 / bid 3 30 / bidder west / bid 2 24 / end"
TWO_LISTS_BOOK = "book 1 / supply 3 / reserve 10 / bidder east / bid 1 20 / bid 3 30 / bidder west / bid 2 30 / end"


@with_program
class Auction(Case):
    def test_books(self) -> None:
        together = "draft,east,1,20 / draft,west,2,30 / submit,east,, / submit,west,, / close,,,"
        in_turn = "draft,east,1,20 / submit,east,, / draft,west,2,30 / submit,west,, / close,,,"
        for name, log, replies, book in [
            ("entry lowered", LOWERED, REPLIES, LOWERED_BOOK),
            ("entry dropped", DROPPED, REPLIES, DROPPED_BOOK),
            ("lists together", lines(f"{CLOCK} / {together}"), TWO_LISTS_REPLIES, TWO_LISTS_BOOK),
            ("lists in turn", lines(f"{CLOCK} / {in_turn}"), TWO_LISTS_REPLIES, TWO_LISTS_BOOK),
            (
                "bid replaced",
                b"bid,east,2,\n" + LOWERED,
                "1 ok / 2 ok / 3 ok / 4 round 2 12 / 5 ok / 6 ok / 7 sealed / 8 ok / 9 ok / 10 relative-cap 2 44 "
                "/ 11 ok / 12 ok "
                "/ 13 closed",
                LOWERED_BOOK,
            ),
        ]:
            with self.subTest(name):
                self.ends("auction AWARD LOG BOOK", {"AWARD": AWARD, "LOG": log}, replies, BOOK=lines(book))

    def test_no_book(self) -> None:
        """After the replies comes the reason for the missing book."""
        greatest = AWARD.replace(b"reserve = 10\n", b"reserve = 68719476736\n")
        for award, told, status in [
            (AWARD, "1 ok / 2 ok / 3 round 2 12 / cca: refused log 4", 3),
            (greatest, "1 ok / 2 ok / 3 price-top 1 82463372084 / cca: limit price 82463372084", 7),
        ]:
            with self.subTest(told):
                self.ends("auction AWARD LOG BOOK", {"AWARD": award, "LOG": lines(FIRST)}, told, status)

    def test_faulty_files(self) -> None:
        three_fields = lines(f"bid,east,3, / bid,west,2 / {SECOND}")
        for award, log, line in [
            (AWARD, three_fields, "cca: refused log 2"),
            (b"version =\n", LOWERED, "cca: refused award 0 0"),
        ]:
            with self.subTest(line):
                self.ends("auction AWARD LOG BOOK", {"AWARD": award, "LOG": log}, line, 3)

    def test_limit_of_rounds(self) -> None:
        """In each of 300 rounds the demand is too high, and the price rises by one tick."""
        given = {"AWARD": AWARD.replace(b"permille = 200", b"permille = 1"), "LOG": lines(FIRST) * 300}
        ended = run("auction", "AWARD", "LOG", "BOOK", **given)
        last = ["897 round 300 309", "898 ok", "899 ok", "900 full 300", "cca: limit rounds 301"]
        self.assertEqual((ended.printed.splitlines()[-5:], ended.status, ended.files), (last, 7, given))
        self.assertEqual(len(ended.printed.splitlines()), 901)


LOWERED_PRICES = (
    "winner east 1 bid 20 vickrey 10 pays 10 / winner west 2 bid 24 vickrey 24 pays 24 / net 14 / revenue 34"
)
DROPPED_PRICES = (
    "winner east 1 bid 20 vickrey 10 pays 10 / winner west 2 bid 24 vickrey 20 pays 20 / net 14 / revenue 30"
)
LOWERED_OBJECT = (
    '{"net":14,"revenue":"34","winners":[{"bid":20,"name":"east","package":[1],"pays":"10","vickrey":10},'
    '{"bid":24,"name":"west","package":[2],"pays":"24","vickrey":24}]}'
)
SAMPLE_PRICES = (
    "winner everest 1 0 3 0 bid 420000 vickrey 292400 pays 292400 "
    "/ winner harbour 0 1 2 4 bid 400000 vickrey 310400 pays 310400 / "
    "winner meridian 1 0 4 5 bid 380000 vickrey 292500 pays 292500 "
    "/ winner niche 0 0 5 0 bid 120000 vickrey 81000 pays 81200 / "
    "winner tarn 2 0 0 0 bid 500000 vickrey 460000 pays 460200 / net 559100 / revenue 1436700"
)


@with_program
class Award(Case):
    def test_priced_and_audited(self) -> None:
        for name, log, prices in ("entry lowered", LOWERED, LOWERED_PRICES), ("entry dropped", DROPPED, DROPPED_PRICES):
            with self.subTest(name):
                given = {"AWARD": AWARD, "LOG": log}
                cert = run("award", "AWARD", "LOG", "CERT", **given).files["CERT"]
                self.ends("award AWARD LOG CERT", given, prices, CERT=cert)
                self.ends("audit AWARD LOG CERT", given | {"CERT": cert}, f"yes / {prices}")

    def test_sample(self) -> None:
        """The certificate of the sample in examples/ is what the program makes of it."""
        given, cert = {"AWARD": sample("spectrum.award"), "LOG": sample("spectrum.log")}, sample("spectrum.cert")
        self.ends("award AWARD LOG CERT", given, SAMPLE_PRICES, CERT=cert)
        self.ends("audit AWARD LOG CERT", given | {"CERT": cert}, f"yes / {SAMPLE_PRICES}")

    def test_turns_and_object(self) -> None:
        given = {"AWARD": AWARD, "LOG": LOWERED}
        cert = run("award", "AWARD", "LOG", "CERT", **given).files["CERT"]
        self.ends("award AWARD LOG CERT --rounds", given, f"round 1 point 0 4 end / {LOWERED_PRICES}", CERT=cert)
        self.ends("award AWARD LOG CERT --json", given, LOWERED_OBJECT, CERT=cert)

    def test_log_is_refused_before_the_certificate(self) -> None:
        self.ends("audit AWARD LOG CERT", {"AWARD": AWARD, "LOG": lines(FIRST)}, "cca: refused log 4", 3)


CATEGORIES = ("a", 4, 10, 1000), ("b", 1, 10, 1500), ("c", 14, 1, 100), ("e", 9, 1, 10)
MADE_AWARD = "".join(
    [
        "version = 1\ntick = 1\n",
        *(
            f'\n[[category]]\nname = "{name}"\nsupply = {supply}\npoints = {points}\nreserve = {reserve}\n'
            for name, supply, points, reserve in CATEGORIES
        ),
        *(f'\n[[bidder]]\nname = "b{j}"\neligibility = 73\n' for j in range(1, 13)),
        *(f"\n[[step]]\nexcess = {excess}\npermille = {permille}\n" for excess, permille in ((1, 100), (5, 200))),
    ]
).encode()
MADE = "made 7 bidders 12 lines 1339\n"


@with_program
class Make(Case):
    def test_same_bytes_twice(self) -> None:
        made = run("make", "7", "AWARD", "LOG")
        self.assertEqual((made.printed, made.status, sorted(made.files)), (MADE, 0, ["AWARD", "LOG"]))
        self.assertEqual(made.files["AWARD"], MADE_AWARD)
        self.assertEqual(len(made.files["LOG"]), 28996)
        self.assertEqual(
            made.files["LOG"][:100],
            b"bid,b1,1 0 4 4,\nbid,b2,2 1 2 0,\nbid,b3,2 1 5 3,\nbid,b4,1 0 5 2,\nbid,b5,2 0 6 0,\n"
            b"bid,b6,1 1 7 3,\nbid,",
        )
        self.assertEqual(run("make", "7", "AWARD", "LOG"), made)

    def test_other_words_are_refused(self) -> None:
        for words in [
            ["7", "AWARD"],
            ["7", "AWARD", "AWARD"],
            ["7", "AWARD", "LOG", "--json"],
            ["7", "-AWARD", "LOG"],
            ["07", "AWARD", "LOG"],
            ["+7", "AWARD", "LOG"],
            ["-7", "AWARD", "LOG"],
            ["", "AWARD", "LOG"],
            ["seven", "AWARD", "LOG"],
            ["4294967296", "AWARD", "LOG"],
            ["9" * 46, "AWARD", "LOG"],
        ]:
            with self.subTest(words=words):
                self.assertEqual(run("make", *words), ("cca: words\n", 2, {}))

    def test_least_and_greatest_number(self) -> None:
        """Their auctions are priced, and the audit of the certificate prints the same prices."""
        for number in "0", "4294967295":
            with self.subTest(number):
                made = run("make", number, "AWARD", "LOG")
                self.assertEqual((made.printed, made.status), (f"made {number} bidders 12 lines 1339\n", 0))
                priced = run("award", "AWARD", "LOG", "CERT", **made.files)
                self.assertEqual((priced.status, sorted(priced.files)), (0, ["AWARD", "CERT", "LOG"]))
                self.assertEqual(
                    run("audit", "AWARD", "LOG", "CERT", **priced.files), ("yes\n" + priced.printed, 0, priced.files)
                )

    def test_number_is_no_file(self) -> None:
        log = run("make", "7", "AWARD", "LOG").files["LOG"]
        self.assertEqual(run("make", "7", "7", "LOG"), (MADE, 0, {"7": MADE_AWARD, "LOG": log}))


if __name__ == "__main__":
    unittest.main()
