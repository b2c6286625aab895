"""Where the tools are installed: the sources' folder, the package's, or the one into which all was copied by hand."""

from pathlib import Path

# It has bin/ and python/, and in the sources pages/ and crates/ too.
TOP = str(Path(__file__).resolve().parents[2])
# The scripts of deploy/ lie in TOP itself where they were copied by hand.
DEPLOY = f"{TOP}/deploy" if Path(f"{TOP}/deploy").is_dir() else TOP
