"""The version, and the names of statuses and rules."""
import pathlib
import re
import unittest

import hvpm


class Names(unittest.TestCase):
    def test_the_version_is_that_of_the_package(self):
        text = (pathlib.Path(__file__).parents[1] / "pyproject.toml").read_text()
        self.assertEqual([hvpm.version()], re.findall(r'^version = "(.*)"', text, re.M))
        major, minor, patch = map(int, hvpm.version().split("."))
        self.assertEqual(hvpm.version_number(), major * 10000 + minor * 100 + patch)

    def test_statuses_of_the_library_have_names(self):
        for status in hvpm.Status:
            self.assertEqual(hvpm.status_name(status), f"HVPM_STATUS_{status.name}")
        self.assertEqual(hvpm.status_name(11), "unknown")

    def test_statuses_of_hypercalls_have_names(self):
        self.assertEqual(hvpm.hv_status_name(6), "HV_STATUS_ACCESS_DENIED")
        self.assertEqual(repr(hvpm.HvStatus(0)), "HV_STATUS_SUCCESS")
        self.assertEqual(str(hvpm.HvStatus(0x13)), "HV_STATUS_INSUFFICIENT_BUFFERS")
        self.assertEqual(hvpm.hv_status_name(1), "unknown")

    def test_rules_have_names_and_sentences(self):
        self.assertEqual([hvpm.rule_name(rule) for rule in (1, 27, 28)], ["P1", "P27", "unknown"])
        self.assertEqual((str(hvpm.Rule(12)), repr(hvpm.Rule(12))), ("P12", "P12"))
        self.assertEqual(hvpm.rule_sentence(2), "The caller's partition is Active.")
        self.assertEqual(hvpm.Rule(2).sentence, "The caller's partition is Active.")
        self.assertEqual(hvpm.rule_sentence(0), "unknown")
