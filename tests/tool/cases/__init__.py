"""The cases of tests/tool/run. A module's GROUPS are functions that yield its cases."""
