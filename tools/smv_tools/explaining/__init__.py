"""The command `explain`: where a model is refused, the very place, the rule, and the words to write."""
