"""velodrome-report: one list of findings over all runs of a program."""

VERSION = "0.2.0"
