"""The version of the planner. It stands here alone."""

VERSION = "3.0.0"
