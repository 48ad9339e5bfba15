"""What stands in editors/: Neovim with the language server, and the files of Visual Studio Code."""
from __future__ import annotations

import json
import os
import re
import shutil
import subprocess
from pathlib import Path

import pytest
from conftest import TOP, Smv

from smv_tools.program import Program

EDITORS = TOP / "editors"
HERE = Path(__file__).parent / "editors"
MODEL = "-- \u00e9\U0001d51e\nMODULE main\nVAR\n  x : boolean;\n-- last\nSPEC AG (x | x)\n"


@pytest.mark.skipif(shutil.which("nvim") is None, reason="nvim isn't installed (Debian: neovim)")
def test_neovim(program: Program, tmp_path: Path) -> None:
    """Neovim without a screen opens, checks, asks, saves and lays out."""
    model, seen = tmp_path / "model.smv", tmp_path / "seen"
    model.write_text(MODEL)
    environment = {**os.environ, "SMV_QUIET": "1", "SMV_MODEL": str(model), "SMV_SEEN": str(seen), "HOME": str(tmp_path),
                   "XDG_STATE_HOME": str(tmp_path), "XDG_CACHE_HOME": str(tmp_path)}
    path = f"set runtimepath^={EDITORS / 'vim'},{EDITORS / 'nvim'}"
    words = ["nvim", "--headless", "--clean", "--cmd", path, "-c", "filetype plugin on", "-c", "syntax on",
             "-c", f"luafile {HERE / 'neovim.lua'}", "-c", "qall!"]
    ended = subprocess.run(words, env=environment, stdin=subprocess.DEVNULL, capture_output=True, text=True, timeout=250)
    lines = seen.read_text().splitlines() if seen.exists() else []
    assert lines[:3] == ["filetype smv smv", "marks true",
                         "mark 6 1 specification 1 is false: a path of 1 state shows it"], (lines, ended.stderr)
    assert lines[3].startswith("hover ```smv x : boolean ```") and lines[4] == "definition 4 3"
    assert lines[5:] == ["clear true", "line SPEC AG (x | !x)", "ended true"], ended.stderr


@pytest.mark.skipif(shutil.which("node") is None, reason="node isn't installed (Debian: nodejs)")
def test_visual_studio_code(program: Program, tmp_path: Path) -> None:
    """The extension's client with the server, and a stand-in for the editor."""
    model = tmp_path / "model.smv"
    model.write_text(MODEL)
    words = ["node", str(HERE / "vscode.js"), str(EDITORS / "vscode/extension.js"), str(TOP / "smv"), str(model)]
    ended = subprocess.run(words, stdin=subprocess.DEVNULL, capture_output=True, text=True, timeout=120)
    assert ended.returncode == 0, ended.stderr
    found = json.loads(ended.stdout)
    assert found["marks"] == [[5, "specification 1 is false: a path of 1 state shows it", 0]]
    assert found["hover"].startswith("```smv\nx : boolean\n```") and found["definition"] == [{"line": 3, "character": 2}]
    assert {"x", "AG", "case"} <= set(found["choices"]) and found["symbols"] == ["main"]
    assert found["layout"] == ["SPEC AG (x | x)"] and found["task"][1] == ["diagnose", "--", "${file}"]
    assert found["after"] == 0 and found["errors"] == []


def test_manifest_of_visual_studio_code(smv: Smv) -> None:
    """The files that it names are there, and the problem matcher reads the lines of `diagnose`."""
    folder = EDITORS / "vscode"
    manifest = json.loads((folder / "package.json").read_text())
    parts = manifest["contributes"]
    for name in (manifest["main"], parts["grammars"][0]["path"], parts["languages"][0]["configuration"]):
        assert (folder / name).is_file()
        assert name.endswith(".js") or json.loads((folder / name).read_text())
    pattern = parts["problemMatchers"][0]["pattern"]
    line = smv("diagnose", "examples/peterson.smv").stdout.splitlines()[0]
    found = re.search(pattern["regexp"], line)
    assert found and [found[pattern[it]] for it in ("file", "line", "column", "severity", "code")] == [
        "examples/peterson.smv", "17", "1", "error", "false"]
