"""The package of the tools, as it stands in this checkout, for the scripts beside this folder: they run as they are
written, from any folder, and write no path. Its modules are those of `python/src/nrm`."""
from pathlib import Path

OWN = Path(__file__).resolve().parents[2] / "python" / "src" / "nrm"
__path__ = [str(OWN)]
exec(compile((OWN / "__init__.py").read_text(encoding="utf-8"), str(OWN / "__init__.py"), "exec"))
