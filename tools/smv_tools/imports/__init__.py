"""Texts of NuSMV and CMU SMV rewritten into the checker's language, each change told with its line."""
