"""Checks of many specifications side by side: on all processors of this machine, and on other machines that are not trusted."""
