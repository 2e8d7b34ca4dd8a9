#!/usr/bin/env python3
"""Tests of tests/wrong_bodies_verdict.py, on what the prover said of edits of tk_ids, tk_stream and tk_aggregator
(tests/wrong_bodies_said).

Usage: tests/wrong_bodies_test.py, in a second. The last line of each file is the status of the check.
"""

import os
import re
import unittest

import wrong_bodies_verdict as verdict

SAID = os.path.join(os.path.dirname(os.path.abspath(__file__)), "wrong_bodies_said")


def said(name):
    with open(os.path.join(SAID, f"{name}.txt")) as it:
        text, status = re.fullmatch(r"(.*)\nstatus (\d+)\n", it.read(), re.S).groups()
    return int(status), text


class Alone(unittest.TestCase):
    def begins(self, name, words):
        self.assertTrue(verdict.alone(*said(name)).startswith(words), verdict.alone(*said(name)))

    def test_a_name_that_is_gone_judges_nothing(self):
        self.begins("renamed_binding", "NOT JUDGED: ")
        self.begins("lost_call", "NOT JUDGED: ")
        self.assertTrue(verdict.alone(*said("lost_call")).endswith("returns: has no field `version`"))

    def test_a_message_that_wraps_is_one(self):
        status, text = said("renamed_binding")
        wrapped = text.replace(" has no field", "\n  has no field").replace("error: `returns-then", "error:\n  `returns-then")
        self.assertEqual(verdict.alone(status, wrapped), verdict.alone(status, text))

    def test_what_stands_on_a_lost_choice_judges_nothing(self):
        self.begins("renamed_parameter", "NOT JUDGED: ")

    def test_a_goal_under_another_name_judges_nothing(self):
        self.begins("renamed_goal", "NOT JUDGED: ")

    def test_a_goal_beside_lost_names_refuses(self):
        self.begins("renamed_and_wrong", "refused by invariant_of-result, returns-then-fits-clause-attrs: ")

    def test_an_answer_to_a_goal_that_is_nothing_any_more_judges_nothing(self):
        self.begins("nothing_left_to_show", "refused by returns-in-Some-clause-none: note: src/aggregator.rt:238:28: ")
        status, text = said("nothing_left_to_show")
        alone = "\n".join(line for line in text.split("\n") if not line.startswith("note: src/"))
        self.assertTrue(verdict.alone(status, alone).startswith("NOT JUDGED: "))

    def test_an_answer_that_fails_refuses(self):
        self.begins("answer_fails", "refused by returns-then-not-index-clause-told, returns-else-i-self-clause-told, ")

    def test_a_proved_body_is_let_through(self):
        self.begins("same_meaning", "LET THROUGH: ")

    def test_what_is_no_rust_is_a_bad_edit(self):
        self.begins("unknown_name", "BAD EDIT: it did not reach the prover: src/id.rt:20:34: error")

    def test_a_check_that_was_killed_is_a_bad_edit(self):
        self.assertTrue(verdict.alone(-9, said("answer_fails")[1]).startswith("BAD EDIT: "))

    def test_words_that_say_nothing_judge_nothing(self):
        self.assertTrue(verdict.alone(1, "only=1 proved=0").startswith("NOT JUDGED: "))


class Among(unittest.TestCase):
    def refused_by(self, function, goal, file=None):
        told = verdict.among(function, said("several")[1], file)
        self.assertTrue(told and told.startswith(f"refused by {goal}"), told)

    def test_each_is_refused_by_its_own_goals(self):
        self.refused_by("id::is_id", "returns-then-recorder", "src/id.rt")
        self.refused_by("attrs::is_used", "returns")
        self.refused_by("attrs::are_attributes", "returns-else-list-lt-MOST_ATTRIBUTES")
        self.refused_by("attrs::Attrs::new", "invariant_of-result, returns-then-are_attributes-clause-attrs")

    def test_what_is_said_of_another_function_is_not_shown(self):
        self.assertTrue(verdict.among("id::is_id", said("several")[1], "src/id.rt").startswith("refused by returns-then-recorder: note: src/id.rt"))
        self.assertEqual(verdict.among("attrs::is_used", said("several")[1]), "refused by returns")

    def test_one_that_only_calls_another_is_not_told_of(self):
        self.assertIsNone(verdict.among("attrs::are_distinct", said("several")[1]))

    def test_one_that_is_proved_is_not_told_of(self):
        self.assertIsNone(verdict.among("name::Name::as_str", said("several")[1]))

    def test_a_lost_name_is_not_told_of(self):
        self.assertIsNone(verdict.among("attrs::are_distinct", said("renamed_binding")[1]))

    def test_a_goal_of_an_answered_function_is_told_by_its_file(self):
        text = said("renamed_and_wrong")[1]
        self.assertTrue(verdict.among("attrs::AttrInfos::new", text, "src/attrs.rt").startswith("refused by invariant_of-result"))
        self.assertIsNone(verdict.among("attrs::AttrInfos::new", text))


class Sums(unittest.TestCase):
    def test_what_is_neither_refused_nor_let_through_is_not_judged(self):
        lines = ["refused by returns", "LET THROUGH: x", "NOT JUDGED: x", "BAD EDIT: x", "refused: 1 tests of a fail, 2 pass"]
        self.assertEqual(verdict.last_line(lines), "2 refused, 1 let through, 2 not judged")
        self.assertFalse(verdict.is_well(lines))
        self.assertFalse(verdict.is_well(["refused by returns", "NOT JUDGED: x"]))
        self.assertTrue(verdict.is_well(["refused by returns"]))
        self.assertFalse(verdict.is_well([]))


if __name__ == "__main__":
    unittest.main()
