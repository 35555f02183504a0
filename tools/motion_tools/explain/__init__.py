"""Explains what came of a run of motion: rejected files, errors, warnings, and a report."""
