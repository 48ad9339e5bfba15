"""The tools beside the proved program: one module a subject. tools/README.md has the map."""
