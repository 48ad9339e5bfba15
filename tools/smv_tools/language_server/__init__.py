"""The commands `lsp` and `diagnose`: what editors ask of a model, by the Language Server Protocol and as lines."""
