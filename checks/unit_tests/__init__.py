"""The tests of checks/unit."""
