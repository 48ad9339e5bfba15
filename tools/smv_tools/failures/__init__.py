"""Failures shown: paths where there is one to show, what each of them shows, tables, waveforms, pictures, walks."""
