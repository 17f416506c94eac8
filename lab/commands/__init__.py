"""A module for each command of bin/."""
