"""Checks that the pictures of the pages, docs/pictures/*.svg, are those that docs/pictures/draw.py draws."""
import importlib.util
from pathlib import Path

from programs import program

FOLDER = Path("docs/pictures")


def pictures_are_drawn():
    """Each picture is what the script draws from the sources, the table of PERFORMANCE and the program, and there are no others."""
    found = importlib.util.spec_from_file_location("draw", FOLDER / "draw.py")
    draw = importlib.util.module_from_spec(found)
    found.loader.exec_module(draw)
    drawn = draw.pictures(program.PROGRAM)
    stored = {path.name: path.read_text(encoding="utf-8") for path in FOLDER.glob("*.svg")}
    assert set(drawn) == set(stored), set(drawn) ^ set(stored)
    others = [name for name, picture in drawn.items() if picture != stored[name]]
    assert not others, f"python3 docs/pictures/draw.py {program.PROGRAM} draws {others} anew"
    print(f"  {len(drawn)} pictures")


CHECKS = [pictures_are_drawn]
