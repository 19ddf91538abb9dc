"""The edits that the prover has to refuse: each can be applied, and changes a body."""
import pathlib
import unittest

ROOT = pathlib.Path(__file__).resolve().parents[2]
OF_THE_GATE = sorted(ROOT.glob("crates/*/must-fail/*.edit"))
MORE = sorted(ROOT.glob("crates/*/wrong/*.edit"))
# The wrong programs that no contract may let through: the gate tests these.
NAMED = {
    "value_table": ["takes_the_first_bids_that_fit_until_the_supply_is_gone", "lets_two_bids_of_one_bidder_win"],
    "core_price": [
        "pays_what_the_winners_bid",
        "answers_the_limit_to_six_winners",
        "starts_with_rows_of_several_winners",
    ],
    "blocking": ["answers_free_where_a_coalition_blocks"],
    "nearest_point": ["lays_the_whole_deficit_on_the_first_winner"],
    "cert_check": [
        "skips_the_tables_without_each_winner",
        "a_row_may_use_its_members",
        "an_earlier_bid_may_tie",
        "says_no_to_each_negative_second_multiplier",
    ],
    "stream_check": ["tests_the_coalitions_of_the_listed_rows_alone"],
    "relative_cap": ["takes_the_highest_amount_over_the_clock_bids_alone"],
    "clock_stage": ["eligibility_falls_with_each_bid"],
    "bid_desk": ["keeps_one_draft_list_for_all_bidders"],
    "log_replay": ["refuses_each_complete_log"],
    "cca_commands": [
        "says_no_to_each_certificate",
        "answers_the_limit_of_winners_to_each_book",
        "price_loads_the_certificate_for_the_book",
    ],
    "cca_run": ["always_a_fault_of_reading", "always_a_fault_of_writing"],
}


def pairs(edit: pathlib.Path) -> tuple[str, list[str], list[str]]:
    """The file of an edit, and the lines that it takes out and puts in."""
    lines = edit.read_text().splitlines()
    name = lines[0].removeprefix("file: ")
    old = [it.removeprefix("old: ") for it in lines if it.startswith("old: ")]
    new = [it.removeprefix("new:").removeprefix(" ") for it in lines if it.startswith("new:")]
    return name, old, new


class EditTests(unittest.TestCase):
    def test_each_applies(self) -> None:
        for edit in OF_THE_GATE + MORE:
            with self.subTest(edit=edit.name):
                name, old, new = pairs(edit)
                text = (edit.parents[1] / name).read_text()
                self.assertEqual(len(old), len(new))
                self.assertNotEqual(old, new)
                for line in old:
                    self.assertEqual(text.count(line), 1, line)

    def test_at_most_four_for_a_crate(self) -> None:
        for crate in {it.parents[1] for it in OF_THE_GATE}:
            self.assertLessEqual(len(list(crate.glob("must-fail/*.edit"))), 4, crate.name)

    def test_the_gate_has_those_that_are_named(self) -> None:
        there = {(it.parents[1].name, it.stem) for it in OF_THE_GATE}
        self.assertEqual({(crate, name) for crate, names in NAMED.items() for name in names} - there, set())

    def test_no_name_stands_twice(self) -> None:
        names = [it.stem for it in OF_THE_GATE + MORE]
        self.assertEqual(len(names), len(set(names)))


if __name__ == "__main__":
    unittest.main()
