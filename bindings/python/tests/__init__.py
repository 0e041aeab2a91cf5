"""Tests of the module, by `python3 -m unittest` in the folder above. Values are those of docs/POLICY.md. HVPM
names the program for the tests of `hvpm.serve`."""
