"""Reports for machines: the record of a run over a model, and its forms."""
