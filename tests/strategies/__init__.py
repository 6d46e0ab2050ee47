"""Strategies of Hypothesis, which is imported only if a group of cases has some."""
